//! `write!` and `writeln!` without `Arguments`: `write!(f, "a {k}{}", x)` is `f.write_fmt((&"a ", (&k, (&x, ()))))`, a type
//! of its own for each text. Holes are `{}` and `{name}`, which is all that the engine uses.

use proc_macro::{TokenStream, TokenTree};

/// What stands between the commas.
fn arguments(input: TokenStream) -> Vec<String> {
    let mut arguments = vec![TokenStream::new()];
    for token in input {
        match (&token, arguments.last_mut()) {
            (TokenTree::Punct(mark), _) if mark.as_char() == ',' => {
                arguments.push(TokenStream::new());
            }
            (_, Some(last)) => last.extend([token]),
            (_, None) => {}
        }
    }
    arguments.iter().map(TokenStream::to_string).collect()
}

/// The parts of a text in turn: what stands between holes as literals, and what the holes name.
fn parts(mut text: &str, given: &[String]) -> Vec<String> {
    let mut given = given.iter();
    let mut parts = Vec::new();
    while !text.is_empty() {
        let end = if text.starts_with('{') {
            let end = text.find('}').expect("a hole ends");
            parts.push(match &text[1..end] {
                "" => given.next().expect("a hole has a value").clone(),
                name => name.to_string(),
            });
            end + 1
        } else {
            let end = text.find('{').unwrap_or(text.len());
            parts.push(format!("\"{}\"", &text[..end]));
            end
        };
        text = &text[end..];
    }
    parts
}

fn expanded(input: TokenStream, line_end: &str) -> TokenStream {
    let arguments = arguments(input);
    let [writer, text, given @ ..] = &arguments[..] else {
        panic!("a writer and a text");
    };
    let text = text.trim_matches('"').to_string() + line_end;
    let nested = parts(&text, given)
        .iter()
        .rfold("()".to_string(), |rest, part| format!("(&{part}, {rest})"));
    let call = format!("{writer}.write_fmt({nested})");
    call.parse().expect("the call is Rust")
}

#[proc_macro]
pub fn write(input: TokenStream) -> TokenStream {
    expanded(input, "")
}

#[proc_macro]
pub fn writeln(input: TokenStream) -> TokenStream {
    expanded(input, "\\n")
}
