//! Reads the `Debug` text of the crate's values, since their fields are not public. Anything unexpected panics.

use crate::wire::Section;

/// What is left of a text.
pub struct Text<'a> {
    rest: &'a str,
}

impl<'a> Text<'a> {
    /// Reads the whole of `text` by `part`.
    pub fn whole<T>(text: &'a str, part: impl Fn(&mut Text<'a>) -> T) -> T {
        let mut reader = Text { rest: text };
        let value = part(&mut reader);
        assert!(reader.rest.is_empty(), "text is left over: {}", reader.rest);
        value
    }

    /// A `TargetBin`: its sides and its free sections.
    pub fn bin(&mut self) -> ([u32; 3], Vec<Section>) {
        let width = self.number_after("TargetBin { max_width: ");
        let height = self.number_after(", max_height: ");
        let depth = self.number_after(", max_depth: ");
        self.skip(", available_bin_sections: ");
        let free = self.sections();
        self.skip(" }");
        ([width, height, depth], free)
    }

    /// A list of `BinSection`s.
    pub fn sections(&mut self) -> Vec<Section> {
        let mut sections = Vec::new();
        self.skip("[");
        while !self.skips("]") {
            if !sections.is_empty() {
                self.skip(", ");
            }
            sections.push(self.section());
        }
        sections
    }

    /// A `PushBinSectionError`: none is OutOfBounds, else the section that the box overlaps.
    pub fn refused_return(&mut self) -> Option<Section> {
        if self.skips("OutOfBounds(") {
            self.section();
            self.skip(")");
            return None;
        }
        self.skip("Overlaps { remaining_section: ");
        let remaining = self.section();
        self.skip(", new_section: ");
        self.section();
        self.skip(" }");
        Some(remaining)
    }

    /// A `BinSection`.
    fn section(&mut self) -> Section {
        let x = self.number_after("BinSection { x: ");
        let y = self.number_after(", y: ");
        let z = self.number_after(", z: ");
        let width = self.number_after(", whd: WidthHeightDepth { width: ");
        let height = self.number_after(", height: ");
        let depth = self.number_after(", depth: ");
        self.skip(" } }");
        Section {
            at: [x, y, z],
            sides: [width, height, depth],
        }
    }

    fn number_after(&mut self, before: &str) -> u32 {
        self.skip(before);
        let end = self
            .rest
            .find(|c: char| !c.is_ascii_digit())
            .unwrap_or(self.rest.len());
        let (digits, rest) = self.rest.split_at(end);
        self.rest = rest;
        digits
            .parse()
            .unwrap_or_else(|_| panic!("a number is expected before: {rest}"))
    }

    fn skip(&mut self, expected: &str) {
        assert!(
            self.skips(expected),
            "`{expected}` is expected at: {}",
            self.rest
        );
    }

    fn skips(&mut self, expected: &str) -> bool {
        match self.rest.strip_prefix(expected) {
            Some(rest) => {
                self.rest = rest;
                true
            }
            None => false,
        }
    }
}
