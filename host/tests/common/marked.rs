//! Pages of edges: texts written with marks, and the columns that they stand in.

/// The edges of a page, each with its columns, which are parted by two blanks or more. The page's
/// remarks, its empty lines and its heading are left out.
pub fn edges(page: &str) -> impl Iterator<Item = Vec<&str>> {
    let lines = page.lines();
    let lines = lines.filter(|line| !line.is_empty() && !line.starts_with('#'));
    lines.skip(1).map(|line| {
        let mut parts = line.split("  ");
        // A text in the first column may begin with a blank.
        let first = parts.next().into_iter();
        let others = parts.map(str::trim).filter(|part| !part.is_empty());
        first.chain(others).collect()
    })
}

/// A text of a page with its marks read: `\t`, `\n`, `\r`, `\0`, `\xHH`, and `[part](N times)`.
pub fn text_of(marked: &str) -> Vec<u8> {
    if marked == "(empty)" {
        return Vec::new();
    }
    let mut text = Vec::new();
    let mut rest = marked;
    while let Some(open) = rest.strip_prefix('[') {
        let (part, after) = open.split_once("](").expect("a repeat has its count");
        let (count, after) = after.split_once(" times)").expect("a count of times");
        let part = bytes_of(part);
        (0..count.parse().expect("a number of times")).for_each(|_| text.extend(&part));
        rest = after;
    }
    text.extend(bytes_of(rest));
    text
}

fn bytes_of(marked: &str) -> Vec<u8> {
    let mut bytes = Vec::new();
    let mut rest = marked.chars();
    while let Some(next) = rest.next() {
        if next != '\\' {
            bytes.push(next as u8);
            continue;
        }
        bytes.push(match rest.next().expect("a mark goes on") {
            't' => b'\t',
            'n' => b'\n',
            'r' => b'\r',
            '0' => 0,
            'x' => u8::from_str_radix(&rest.by_ref().take(2).collect::<String>(), 16)
                .expect("two digits of 16"),
            other => panic!("no mark {other}"),
        });
    }
    bytes
}
