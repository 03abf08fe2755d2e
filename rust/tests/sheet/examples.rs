//! The forty sheets of examples/mast.
use crate::process::answer;
use model::sheet::{self, Sheet};
use std::path::{Path, PathBuf};
use std::process::Command;
use std::{env, fs, process};

fn folder() -> PathBuf {
    Path::new(env!("CARGO_MANIFEST_DIR")).join("../examples/mast")
}

/// The sheet of a level and a face.
fn sheet_at(folder: &Path, level: u32, face: &str) -> Vec<u8> {
    let path = folder.join(format!("{level:02}-{face}.sheet"));
    fs::read(&path).unwrap_or_else(|error| panic!("{}: {error}", path.display()))
}

/// The program reads each sheet as the model does, except 14-FR, which has no reading; and the two faces of a level are 200 gon
/// apart, within 40 ten-thousandths.
#[test]
fn forty_lines() {
    assert_eq!(fs::read_dir(folder()).unwrap().count(), 40);
    for level in 1..=20 {
        let [left, right] = ["FL", "FR"].map(|face| {
            let sheet = sheet_at(&folder(), level, face);
            let (number, printed) = sheet::answer(&sheet);
            assert_eq!(answer(&sheet).as_bytes(), printed, "{level} {face}");
            let lost = (level, face) == (14, "FR");
            assert_eq!(number, if lost { 16 } else { 0 }, "{level} {face}");
            (!lost).then(|| angle(&printed, face))
        });
        if let (Some(left), Some(right)) = (left, right) {
            assert!((2_000_000..2_000_040).contains(&(right - left)), "{level}");
        }
    }
}

/// The angle in a printed word, in ten-thousandths of a gon.
fn angle(printed: &[u8], face: &str) -> u32 {
    let printed = String::from_utf8(printed.to_vec()).unwrap();
    let word = printed.lines().nth(1).unwrap();
    let angle = word.strip_prefix(face).expect("the face of the file");
    angle.trim().replace('.', "").parse().expect("a number")
}

/// The price of a sheet's line with one label in the place of either, if there is a reading.
fn price_with(sheet: &Sheet, label: &str) -> Option<i32> {
    let text = String::from_utf8(sheet.text.clone()).unwrap();
    let fixed = Sheet {
        text: text.replace("F[LR]", label).into_bytes(),
        ..sheet.clone()
    };
    let printed = answer(&fixed.write());
    printed.lines().next().unwrap().parse().ok()
}

/// What the table has for the label of a sheet's line: by how much the other label is dearer, with `?` below 16; `only` if there
/// is no reading with the other one, nothing if there is none at all.
fn label(sheet: &Sheet, face: &str) -> String {
    let other = if face == "FL" { "FR" } else { "FL" };
    match (price_with(sheet, face), price_with(sheet, other)) {
        (Some(own), Some(other)) if other - own < 16 => format!("{}?", other - own),
        (Some(own), Some(other)) => (other - own).to_string(),
        (Some(_), None) => "only".to_string(),
        (None, None) => String::new(),
        (None, Some(_)) => panic!("only {other} has a reading"),
    }
}

/// The column `label` of examples/mast.txt. At 6 FR the labels are hard to tell apart, and at 17 FL they are equal: then FL is
/// read, which is the first by labels.
#[test]
fn labels_by_much_or_little() {
    let table = fs::read_to_string(folder().join("../mast.txt")).unwrap();
    assert_eq!(table.lines().count(), 41);
    let mut doubtful = Vec::new();
    for (n, row) in table.lines().skip(1).enumerate() {
        let (level, face) = (1 + n as u32 / 2, ["FL", "FR"][n % 2]);
        let sheet = Sheet::read(&sheet_at(&folder(), level, face)).expect("a sheet");
        let column: String = row.chars().skip(34).take(6).collect();
        assert_eq!(column.trim(), label(&sheet, face), "{row}");
        if column.contains('?') {
            doubtful.push((level, face));
        }
    }
    assert_eq!(doubtful, [(6, "FR"), (17, "FL")]);
}

/// The sheets are those that the program `mast` writes.
#[test]
fn written_by_mast() {
    let made = env::temp_dir().join(format!("mast-{}", process::id()));
    let status = Command::new(env!("CARGO_BIN_EXE_mast")).arg(&made).status();
    assert!(status.expect("a program that can be run").success());
    for level in 1..=20 {
        for face in ["FL", "FR"] {
            let (new, stored) = (
                sheet_at(&made, level, face),
                sheet_at(&folder(), level, face),
            );
            assert_eq!(new, stored, "{level} {face}");
        }
    }
    fs::remove_dir_all(made).unwrap();
}
