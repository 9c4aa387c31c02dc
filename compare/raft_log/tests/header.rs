//! raft_log.h declares what src/sys.rs declares, parameter by parameter; that is what compare/run calls the library by.

/// The functions of a text with their parameters, which are as `parameter` spells them.
fn functions(text: &str, parameter: fn(&str) -> String) -> Vec<String> {
    let mut out = vec![];
    for part in text.split(';') {
        let Some((before, rest)) = part.split_once('(') else {
            continue;
        };
        let name = before.split_whitespace().last().unwrap();
        let inside = rest.split(')').next().unwrap().replace("; ", " ");
        let parameters: Vec<String> = inside.split(',').map(str::trim).filter(|p| !p.is_empty()).map(parameter).collect();
        if name.starts_with("raft_log_") {
            out.push(format!("{name}({})", parameters.join(", ")));
        }
    }
    out
}

/// `const uint8_t *data` is `data: *const u8`, and `uint64_t answer[2]` is `answer: *mut [u64 2]`.
fn from_c(text: &str) -> String {
    let (target, text) = text.strip_prefix("const ").map_or(("*mut", text), |text| ("*const", text));
    let (kind, name) = text.split_once(' ').unwrap();
    let kind = match kind {
        "uint8_t" => "u8",
        "uint32_t" => "u32",
        "uint64_t" => "u64",
        "size_t" => "usize",
        other => other,
    };
    if let Some(name) = name.strip_prefix('*') {
        return format!("{name}: {target} {kind}");
    }
    match name.split_once('[') {
        Some((name, words)) => format!("{name}: {target} [{kind} {}]", words.trim_end_matches(']')),
        None => format!("{name}: {kind}"),
    }
}

#[test]
fn header_is_sys() {
    let header = include_str!("../../../raft_log.h").split("extern \"C\" {").nth(1).unwrap();
    let mut code = String::new();
    for piece in header.split("/*") {
        code.push_str(piece.split_once("*/").map_or(piece, |(_, code)| code));
    }
    let sys = include_str!("../src/sys.rs").split("extern \"C\" {").nth(1).unwrap().replace("; ", " ");
    let (header, sys) = (functions(&code, from_c), functions(&sys, str::to_string));
    assert_eq!(header.len(), 14);
    assert_eq!(header, sys);
}
