//! The fields of every struct that passes between C and the library: what is marked
//! `#[repr(C)]` in the crates has the header's fields, in its order and with its types.
//! bindings/c/layout.h holds the offsets by number.

use std::collections::BTreeMap;
use std::fs;
use std::path::{Path, PathBuf};

/// A field's name and type; the type as the crates write it.
type Fields = Vec<(String, String)>;

fn top() -> PathBuf {
    Path::new(env!("CARGO_MANIFEST_DIR")).join("../..")
}

/// The header's `polgamir_tour_answer` is the crates' `PolgamirTourAnswer` or `TourAnswer`.
fn header_name(name: &str) -> String {
    let mut made = String::from("polgamir");
    for letter in name.strip_prefix("Polgamir").unwrap_or(name).chars() {
        if letter.is_uppercase() {
            made.push('_');
        }
        made.extend(letter.to_lowercase());
    }
    made
}

fn in_crates() -> BTreeMap<String, Fields> {
    let mut found = BTreeMap::new();
    for name in fs::read_dir(top().join("crates")).unwrap() {
        let Ok(files) = fs::read_dir(name.unwrap().path().join("src")) else { continue };
        for file in files {
            let text = fs::read_to_string(file.unwrap().path()).unwrap();
            for part in text.split("#[repr(C)]\n#[derive(Clone, Copy)]\npub struct ").skip(1) {
                let (name, rest) = part.split_once(" {").unwrap();
                let fields = rest.split_once("\n}").unwrap().0.trim().lines().map(|line| {
                    let (name, kind) =
                        line.trim().trim_start_matches("pub ").trim_end_matches(',').split_once(": ").unwrap();
                    (name.to_string(), kind.to_string())
                });
                found.insert(header_name(name), fields.collect());
            }
        }
    }
    found
}

/// A type of the crates as the header writes it, with what stands after the field's name.
fn in_c(kind: &str) -> (String, String) {
    if let Some((element, count)) = kind.trim_start_matches('[').trim_end_matches(']').split_once("; ") {
        let count = match count {
            "AXES" => "POLGAMIR_AXES",
            "MAX_WINDOWS" => "POLGAMIR_WINDOWS",
            other => other,
        };
        return (in_c(element).0, format!("[{count}]"));
    }
    let name = match kind {
        "u32" => "uint32_t".to_string(),
        "i64" => "int64_t".to_string(),
        "usize" => "uint64_t".to_string(),
        "f32" => "float".to_string(),
        named => header_name(named),
    };
    (name, String::new())
}

/// The lines of a struct's fields in the header, without their comments.
fn in_header(header: &str, name: &str) -> Vec<String> {
    let begun = header.split_once(&format!("typedef struct {name} {{\n")).unwrap_or_else(|| panic!("{name}")).1;
    let fields = begun.split_once("\n}").unwrap().0;
    fields.lines().filter_map(|line| Some(line.split_once(';')?.0.trim().to_string())).collect()
}

#[test]
fn the_fields_are_the_headers() {
    let header = fs::read_to_string(top().join("include/polgamir.h")).unwrap();
    let structs = in_crates();
    assert_eq!(structs.len(), header.matches("typedef struct ").count(), "{:?}", structs.keys());
    for (name, fields) in structs {
        let want: Vec<String> = fields
            .iter()
            .map(|(field, kind)| {
                let (kind, after) = in_c(kind);
                format!("{kind} {field}{after}")
            })
            .collect();
        assert_eq!(in_header(&header, &name), want, "{name}");
    }
}
