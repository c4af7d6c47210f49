//! Whether a text is JSON.

/// What is left of a text.
struct Rest<'a> {
    text: &'a [u8],
}

/// Whether the text is one JSON value.
pub fn is_json(text: &str) -> bool {
    let mut rest = Rest { text: text.as_bytes() };
    rest.value().is_some() && rest.next().is_none()
}

impl Rest<'_> {
    /// The next byte that is no white space.
    fn next(&mut self) -> Option<u8> {
        while let [b' ' | b'\n' | b'\r' | b'\t', text @ ..] = self.text {
            self.text = text;
        }
        self.text.first().copied()
    }

    /// Takes what is due.
    fn take(&mut self, due: &str) -> Option<()> {
        self.next();
        self.text = self.text.strip_prefix(due.as_bytes())?;
        Some(())
    }

    fn value(&mut self) -> Option<()> {
        match self.next()? {
            b'{' => self.items("{", "}", |rest| {
                rest.string()?;
                rest.take(":")?;
                rest.value()
            }),
            b'[' => self.items("[", "]", Rest::value),
            b'"' => self.string(),
            b't' => self.take("true"),
            b'f' => self.take("false"),
            b'n' => self.take("null"),
            _ => self.number(),
        }
    }

    /// Items between two brackets, a comma between any two.
    fn items(&mut self, open: &str, close: &str, item: impl Fn(&mut Self) -> Option<()>) -> Option<()> {
        self.take(open)?;
        if self.take(close).is_some() {
            return Some(());
        }
        loop {
            item(self)?;
            if self.take(close).is_some() {
                return Some(());
            }
            self.take(",")?;
        }
    }

    fn string(&mut self) -> Option<()> {
        self.take("\"")?;
        loop {
            self.text = match self.text {
                [b'"', text @ ..] => {
                    self.text = text;
                    return Some(());
                }
                [b'\\', b'"' | b'\\', text @ ..] => text,
                [b'\\', b'u', text @ ..] if text.len() >= 4 && text[..4].iter().all(u8::is_ascii_hexdigit) => {
                    &text[4..]
                }
                [b' '..=b'[' | b']'..=u8::MAX, text @ ..] => text,
                _ => return None,
            };
        }
    }

    /// A whole number.
    fn number(&mut self) -> Option<()> {
        let text = self.text.strip_prefix(b"-").unwrap_or(self.text);
        let digits = text.iter().take_while(|byte| byte.is_ascii_digit()).count();
        self.text = &text[digits..];
        (digits == 1 || digits > 1 && text[0] != b'0').then_some(())
    }
}
