//! The declaration of the call. The test below holds it to the source of the library.

unsafe extern "C" {
    pub(crate) fn buzhnael_serialize_md(
        sheet: *const u8,
        sheet_len: usize,
        own: u8,
        run: *const u8,
        run_len: usize,
        start: usize,
        include_node: u8,
        nodes: *mut u8,
        nodes_len: usize,
        text: *mut u8,
        text_len: usize,
    ) -> i64;
}

#[cfg(test)]
mod tests {
    use std::fs;

    /// The parameters and the result behind `start` in `source`, as (name, type); the result has the name "".
    fn signature(source: &str, start: &str) -> Vec<(String, String)> {
        let at = source.find(start).unwrap_or_else(|| panic!("no `{start}`")) + start.len();
        let rest = &source[at..];
        let (inside, behind) = rest.split_once(')').unwrap();
        let mut out: Vec<_> = inside
            .split(',')
            .map(str::trim)
            .filter(|p| !p.is_empty())
            .map(|p| {
                let (name, kind) = p.split_once(':').unwrap();
                (name.trim().to_string(), kind.trim().to_string())
            })
            .collect();
        let result = behind.trim_start().strip_prefix("->").unwrap();
        out.push((String::new(), result.split_whitespace().next().unwrap().trim_end_matches(';').to_string()));
        out
    }

    /// As a host sees it: a slice is a pointer and a length.
    fn as_hosts_see(parameters: Vec<(String, String)>) -> Vec<(String, String)> {
        let mut out = vec![];
        for (name, kind) in parameters {
            let pointer = match kind.as_str() {
                "&[u8]" => "*const u8",
                "&mut [u8]" => "*mut u8",
                "u8" | "usize" | "i64" => {
                    out.push((name, kind));
                    continue;
                }
                _ => panic!("a type that no host is told of: {kind}"),
            };
            out.push((name.clone(), pointer.to_string()));
            out.push((name + "_len", "usize".to_string()));
        }
        out
    }

    fn source() -> Vec<(String, String)> {
        let path = concat!(env!("CARGO_MANIFEST_DIR"), "/../../crates/md_c/src/lib.rt");
        let source = fs::read_to_string(path).unwrap();
        as_hosts_see(signature(&source, "#[unsafe(no_mangle)]\npub extern \"C\" fn buzhnael_serialize_md("))
    }

    #[test]
    fn the_declaration_is_that_of_the_source() {
        let declared = signature(include_str!("raw.rs"), "pub(crate) fn buzhnael_serialize_md(");
        assert_eq!(declared.len(), 12);
        assert_eq!(declared, source());
    }

    #[test]
    fn the_header_of_c_is_that_of_the_source() {
        let header = fs::read_to_string(concat!(env!("CARGO_MANIFEST_DIR"), "/../c/buzhnael.h")).unwrap();
        let (result, rest) = header.split_once(" buzhnael_serialize_md(").unwrap();
        assert!(result.ends_with("\nint64_t"));
        let (inside, _) = rest.split_once(");").unwrap();
        let mut declared: Vec<_> = inside
            .split(',')
            .map(|p| {
                let at = p.rfind([' ', '*']).unwrap() + 1;
                let kind = match p[..at].trim() {
                    "const uint8_t *" => "*const u8",
                    "uint8_t *" => "*mut u8",
                    "uint8_t" => "u8",
                    "size_t" => "usize",
                    other => panic!("{other}"),
                };
                (p[at..].to_string(), kind.to_string())
            })
            .collect();
        declared.push((String::new(), "i64".to_string()));
        assert_eq!(declared, source());
    }

    #[test]
    fn every_flag_but_0_is_true() {
        // `p` with "x", from node 1: with it "\n\nx\n\n", without it "x"; the own list is empty
        let sheet = *b"\x01\0\x01p\x04\0\x01x\x06\0\0";
        for flag in 0..=255u8 {
            let (mut nodes, mut text) = ([7u8; 192], [7u8; 8]);
            let bad = *b"\x07\0\0";
            let call = |own: u8, run: &[u8], nodes: &mut [u8], text: &mut [u8]| unsafe {
                super::buzhnael_serialize_md(
                    sheet.as_ptr(),
                    sheet.len(),
                    own,
                    run.as_ptr(),
                    run.len(),
                    1,
                    flag,
                    nodes.as_mut_ptr(),
                    nodes.len(),
                    text.as_mut_ptr(),
                    text.len(),
                )
            };
            // the run is looked at only where the list is the host's own
            assert_eq!(call(flag, &bad, &mut nodes, &mut text), if flag == 0 { 1 } else { -8 });
            let (mut nodes, mut text) = ([7u8; 192], [7u8; 8]);
            assert_eq!(call(0, &bad, &mut nodes, &mut text), if flag == 0 { 1 } else { 5 });
            let wanted: &[u8; 8] = if flag == 0 { b"x\0\0\0\0\0\0\0" } else { b"\n\nx\n\n\0\0\0" };
            assert_eq!(&text, wanted);
            assert_eq!(nodes, [0; 192]);
        }
    }
}
