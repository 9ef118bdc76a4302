//! A test that each public item of the crate has an example, or a link to one.

use std::fs;
use std::path::Path;

/// The files whose public items are the crate's, if they are in an `impl` or lib.rs names them.
const FILES: [&str; 9] = [
    "acts", "blocks", "calls", "core", "images", "lib", "memory", "numbers", "words",
];

/// The name of the public item that a line begins.
fn item(line: &str) -> Option<&str> {
    let rest = line.trim_start().strip_prefix("pub ")?;
    let rest = ["const fn ", "fn ", "struct ", "enum ", "const "]
        .iter()
        .find_map(|kind| rest.strip_prefix(kind))?;
    rest.split(|letter: char| !letter.is_alphanumeric() && letter != '_')
        .next()
}

/// Whether a docstring has an example, or names one that is there.
fn has_example(docs: &str, of_crate: &str) -> bool {
    let linked = docs
        .split("Example: [")
        .nth(1)
        .and_then(|rest| rest.split(']').next());
    docs.contains("```")
        || docs.contains("[`Numbers`] has an example.")
        || linked.is_some_and(|name| {
            let is_section = of_crate
                .lines()
                .filter_map(|line| line.strip_prefix("//! # "))
                .any(|section| section.eq_ignore_ascii_case(name));
            is_section || ["`Core::image`", "`Core::over`"].contains(&name)
        })
}

#[test]
fn each_public_item_has_an_example_or_a_link_to_one() {
    let folder = Path::new(env!("CARGO_MANIFEST_DIR")).join("src");
    let of_crate = fs::read_to_string(folder.join("lib.rs")).unwrap();
    let mut count = 0;
    for name in FILES {
        let text = fs::read_to_string(folder.join(format!("{name}.rs"))).unwrap();
        let mut docs = String::new();
        for line in text.lines() {
            let own = line.trim_start();
            if own.starts_with("///") {
                docs.push_str(own);
                continue;
            }
            if own.starts_with("#[") {
                continue;
            }
            if let Some(item) = item(line) {
                let is_public = line.starts_with(' ') || of_crate.contains(item);
                assert!(
                    !is_public || has_example(&docs, &of_crate),
                    "{item} in src/{name}.rs"
                );
                count += usize::from(is_public);
            }
            docs.clear();
        }
    }
    assert!(count > 80, "only {count} items are seen");
}
