//! A table as text, commas between.

/// One row: what holds a comma, a quotation mark or a line's end stands in quotation marks.
pub fn row<T: AsRef<str>>(cells: &[T]) -> String {
    let cell = |text: &T| {
        let text = text.as_ref();
        let plain = !text.contains(|c: char| c == ',' || c == '"' || c.is_control());
        if plain {
            text.to_string()
        } else {
            format!("\"{}\"", text.replace('"', "\"\""))
        }
    };
    cells.iter().map(cell).collect::<Vec<_>>().join(",") + "\r\n"
}

#[cfg(test)]
mod tests {
    use super::*;

    #[test]
    fn cells_are_quoted_where_they_must_be() {
        assert_eq!(row(&["a b", "c,d", "say \"e\"", "", "f\ng"]), "a b,\"c,d\",\"say \"\"e\"\"\",,\"f\ng\"\r\n");
    }
}
