//! The declarations of `raw` are those of `walls.h`: the same functions with the same parameters, in the same order.

const RAW: &str = include_str!("../src/raw.rs");
const HEADER: &str = include_str!("../../walls.h");

const TYPES: [(&str, &str); 13] = [
    ("u32", "uint32_t "),
    ("i32", "int32_t "),
    ("u64", "uint64_t "),
    ("usize", "size_t "),
    ("*const u8", "const uint8_t *"),
    ("*const u16", "const uint16_t *"),
    ("*const u32", "const uint32_t *"),
    ("*const i32", "const int32_t *"),
    ("*mut u8", "uint8_t *"),
    ("*mut u16", "uint16_t *"),
    ("*mut u32", "uint32_t *"),
    ("*mut i32", "int32_t *"),
    ("*mut u64", "uint64_t *"),
];

/// Name and parameters of each function whose declaration begins with `open` and ends with `close`.
fn declared<'t>(text: &'t str, open: &str, close: &str) -> Vec<(&'t str, Vec<&'t str>)> {
    let bodies = text
        .split(open)
        .skip(1)
        .filter_map(|rest| rest.split(close).next());
    bodies
        .filter_map(|body| body.split_once('('))
        .map(|(name, list)| {
            let parameters = list.split(',').map(str::trim);
            (name, parameters.filter(|p| !p.is_empty()).collect())
        })
        .collect()
}

/// A parameter of `raw` as C writes it.
fn in_c(parameter: &str) -> String {
    let (name, rust) = parameter.split_once(": ").expect("a name and a type");
    let (_, c) = TYPES
        .iter()
        .find(|(r, _)| *r == rust)
        .expect("a type that C has");
    format!("{c}{name}")
}

#[test]
fn the_declarations_agree() {
    let rust = declared(RAW, "pub fn ", ") -> u32;");
    let c = declared(HEADER, "\nuint32_t ", ");");
    let names: Vec<&str> = rust.iter().map(|(name, _)| *name).collect();
    let calls = [
        "prepare", "cover", "lift", "begin", "step", "read", "judge", "rank", "closer",
    ];
    assert_eq!(names, calls.map(|call| format!("hitrovzen_{call}")));
    assert_eq!(rust.len(), c.len());
    for ((rust_name, rust), (c_name, c)) in rust.iter().zip(&c) {
        assert_eq!(rust_name, c_name);
        let expected: Vec<String> = rust.iter().map(|parameter| in_c(parameter)).collect();
        assert_eq!(&expected, c, "{rust_name}");
    }
}
