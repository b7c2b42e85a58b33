//! The example folders: each prints what stands beside it, and what it means is said in words.

use std::fs;
use std::path::Path;

use vigambul_model::program;

#[test]
fn every_example_prints_what_stands_beside_it() {
    let examples = Path::new(env!("CARGO_MANIFEST_DIR")).join("../examples");
    let mut folders = 0;
    for entry in fs::read_dir(examples).expect("the folder of examples") {
        let folder = entry.expect("an example").path();
        // Beside the folders stand what to read first and the script that runs one.
        if !folder.is_dir() {
            continue;
        }
        let read = |name: &str| {
            fs::read(folder.join(name))
                .unwrap_or_else(|error| panic!("{}: {error}", folder.join(name).display()))
        };
        let printed = program::output(&read("policy.bin"), &read("trace.bin"));
        assert_eq!(
            String::from_utf8_lossy(&printed),
            String::from_utf8_lossy(&read("expected.txt")),
            "{}",
            folder.display()
        );
        assert!(!read("README.md").is_empty());
        folders += 1;
    }
    assert!(folders >= 5, "{folders} examples");
}
