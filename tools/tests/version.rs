//! The version stands in one place, the file VERSION. What must repeat it is held to it here.

use std::path::Path;

fn read(name: &str) -> String {
    let place = Path::new(env!("CARGO_MANIFEST_DIR")).join("..").join(name);
    std::fs::read_to_string(place).unwrap_or_else(|error| panic!("{name}: {error}"))
}

/// The version in VERSION: three numbers on a line.
fn version() -> String {
    let text = read("VERSION");
    let version = text.strip_suffix('\n').expect("VERSION is one line").to_string();
    let numbers: Vec<&str> = version.split('.').collect();
    let number = |part: &&str| part.parse::<u32>().is_ok_and(|number| number.to_string() == **part);
    assert!(numbers.len() == 3 && numbers.iter().all(number), "VERSION has {version:?}");
    version
}

#[test]
fn packages() {
    for folder in ["rust", "tools", "host"] {
        let name = format!("{folder}/Cargo.toml");
        let text = read(&name);
        let found: Vec<&str> = text.lines().filter(|line| line.starts_with("version = ")).collect();
        assert_eq!(found, [format!("version = \"{}\"", version())], "{name}");
    }
}

/// Lock files that are kept name the package of their folder too.
#[test]
fn locks() {
    for (name, package) in [("rust/Cargo.lock", "openrules"), ("host/Cargo.lock", "host")] {
        let wanted = format!("name = \"{package}\"\nversion = \"{}\"\n", version());
        assert!(read(name).contains(&wanted), "{name} lacks {wanted:?}");
    }
}

#[test]
fn documents() {
    let page = read("docs/openrules.1");
    let title = format!(".TH OPENRULES 1 \"\" \"openrules {}\" \"User Commands\"", version());
    assert_eq!(page.lines().next(), Some(&*title));
    let changes = read("CHANGELOG.md");
    let newest = changes.lines().find(|line| line.starts_with("## "));
    assert_eq!(newest, Some(&*format!("## {}", version())));
}
