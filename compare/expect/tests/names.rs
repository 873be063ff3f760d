//! docs/check-names: the names in docs/TRACEABILITY.md, docs/NUMBERS.md and docs/RULES.md.

use std::process::Command;

#[test]
fn every_name_in_the_documents_exists() {
    let script = concat!(env!("CARGO_MANIFEST_DIR"), "/../../docs/check-names");
    let ran = Command::new("python3").arg(script).output().expect("python3 is needed");
    let said = [ran.stdout, ran.stderr].concat();
    assert!(ran.status.success(), "\n{}", String::from_utf8_lossy(&said));
}
