//! Text as HTML.

/// Text between tags or inside a quoted attribute.
pub fn text(plain: &str) -> String {
    let mut escaped = String::with_capacity(plain.len());
    for letter in plain.chars() {
        match letter {
            '&' => escaped += "&amp;",
            '<' => escaped += "&lt;",
            '>' => escaped += "&gt;",
            '"' => escaped += "&quot;",
            '\'' => escaped += "&#39;",
            _ => escaped.push(letter),
        }
    }
    escaped
}

/// A sentence of docs/REFUSALS.md: what stands between backticks is code.
pub fn prose(sentence: &str) -> String {
    let part = |(nth, part): (usize, &str)| match nth % 2 {
        0 => text(part),
        _ => format!("<code>{}</code>", text(part)),
    };
    sentence.split('`').enumerate().map(part).collect()
}

#[cfg(test)]
mod tests {
    use super::*;

    #[test]
    fn nothing_breaks_out() {
        assert_eq!(text(r#"a<b>&".mp4'"#), "a&lt;b&gt;&amp;&quot;.mp4&#39;");
        let code = "<code>tfdt</code> &lt; <code>a&amp;b</code>.";
        assert_eq!(prose("`tfdt` < `a&b`."), code);
    }
}
