//! The desk's expected output for each sample sheet, by this reading of the rules.
use std::fs;
use std::path::Path;

#[test]
fn samples() {
    let folder = Path::new(env!("CARGO_MANIFEST_DIR")).join("../samples");
    let mut sheets = 0;
    for entry in fs::read_dir(folder).unwrap() {
        let path = entry.unwrap().path();
        if path.extension().is_some_and(|e| e == "sheet") {
            let file = fs::read(&path).unwrap();
            let expected = fs::read_to_string(path.with_extension("txt")).unwrap();
            assert_eq!(second_reading::desk::output(&file), expected, "{}", path.display());
            sheets += 1;
        }
    }
    assert!(sheets >= 12);
}
