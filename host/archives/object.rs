// What a linker reads of an archive: the names that it defines, and the machine that it is for.

/// An archive's members, each with its name.
pub struct Archive<'a>(Vec<(&'a [u8], &'a [u8])>);

impl<'a> Archive<'a> {
    /// The members of an archive, or nothing where the bytes aren't a whole one.
    pub fn parse(bytes: &'a [u8]) -> Option<Archive<'a>> {
        let mut rest = bytes.strip_prefix(b"!<arch>\n")?;
        let mut members = Vec::new();
        while !rest.is_empty() {
            let (head, behind) = rest.split_at_checked(60)?;
            let size: usize = std::str::from_utf8(&head[48..58]).ok()?.trim().parse().ok()?;
            let (content, behind) = behind.split_at_checked(size)?;
            members.push((head[..16].trim_ascii(), content));
            rest = behind.get(size % 2..).unwrap_or_default();
        }
        Some(Archive(members))
    }

    /// Whether its index has the name.
    pub fn defines(&self, name: &str) -> bool {
        self.0.iter().filter(|(member, _)| *member == b"/").any(|(_, index)| {
            let count = index.first_chunk().map_or(0, |count| u32::from_be_bytes(*count) as usize);
            let names = index.get(4 + 4 * count..).unwrap_or_default();
            names.split(|byte| *byte == 0).any(|one| one == name.as_bytes())
        })
    }

    /// The machines that its objects are for, as Rust names them.
    pub fn machines(&self) -> Vec<String> {
        let objects = self.0.iter().filter_map(|(_, content)| content.strip_prefix(b"\x7fELF"));
        let machine = |object: &[u8]| match object.get(14..16) {
            Some([62, 0]) => "x86_64".to_string(),
            Some([183, 0]) => "aarch64".to_string(),
            Some([low, high]) => format!("ELF machine {}", u16::from_le_bytes([*low, *high])),
            _ => "no machine".to_string(),
        };
        objects.map(machine).collect()
    }
}
