//! What conversions are compared with: a plain program that makes a tree of a file's tokens or elements,
//! checks nothing, and writes the tree again. `plain text FILE` and `plain octets FILE`.
use std::io::Write;

enum Tree {
    Token(Vec<u8>),
    List(u8, Vec<Tree>),
}

fn read_text(bytes: &[u8], mut at: usize, trees: &mut Vec<Tree>) -> usize {
    while at < bytes.len() {
        match bytes[at] {
            b' ' | b'\t' | b'\r' | b'\n' => at += 1,
            b'/' => {
                while at < bytes.len() && bytes[at] != b'\n' {
                    at += 1;
                }
            }
            open @ (b'(' | b'{') => {
                let mut inner = Vec::new();
                at = read_text(bytes, at + 1, &mut inner);
                trees.push(Tree::List(open, inner));
            }
            b')' | b'}' => return at + 1,
            mark @ (b'"' | b'\'') => {
                let start = at;
                at += 1;
                while at < bytes.len() && bytes[at] != mark {
                    at += 1;
                }
                at += 1;
                trees.push(Tree::Token(bytes[start..at].to_vec()));
            }
            _ => {
                let start = at;
                while at < bytes.len() && !b" \t\r\n(){}\"'/".contains(&bytes[at]) {
                    at += 1;
                }
                trees.push(Tree::Token(bytes[start..at].to_vec()));
            }
        }
    }
    at
}

fn write_text(trees: &[Tree], out: &mut Vec<u8>) {
    for tree in trees {
        out.push(b' ');
        match tree {
            Tree::Token(token) => out.extend_from_slice(token),
            Tree::List(open, inner) => {
                out.push(*open);
                write_text(inner, out);
                out.extend_from_slice(if *open == b'(' { b" )" } else { b" }" });
            }
        }
    }
}

enum Element {
    Plain(Vec<u8>, Vec<u8>),
    Nested(Vec<u8>, Vec<Element>),
}

fn read_octets(mut bytes: &[u8]) -> Vec<Element> {
    let mut elements = Vec::new();
    while !bytes.is_empty() {
        let mut at = 1;
        if bytes[0] & 31 == 31 {
            while bytes[at] & 128 != 0 {
                at += 1;
            }
            at += 1;
        }
        let tag = bytes[..at].to_vec();
        let mut length = bytes[at] as usize;
        at += 1;
        if length >= 128 {
            let count = length - 128;
            length = bytes[at..at + count].iter().fold(0, |n, b| n * 256 + *b as usize);
            at += count;
        }
        let contents = &bytes[at..at + length];
        elements.push(if tag[0] & 32 != 0 {
            Element::Nested(tag, read_octets(contents))
        } else {
            Element::Plain(tag, contents.to_vec())
        });
        bytes = &bytes[at + length..];
    }
    elements
}

fn write_element(tag: &[u8], contents: &[u8], out: &mut Vec<u8>) {
    out.extend_from_slice(tag);
    if contents.len() < 128 {
        out.push(contents.len() as u8);
    } else {
        let digits = (contents.len() as u64).to_be_bytes();
        let skip = digits.iter().take_while(|d| **d == 0).count();
        out.push(128 + (8 - skip) as u8);
        out.extend_from_slice(&digits[skip..]);
    }
    out.extend_from_slice(contents);
}

fn write_octets(elements: &[Element], out: &mut Vec<u8>) {
    for element in elements {
        match element {
            Element::Plain(tag, contents) => write_element(tag, contents, out),
            Element::Nested(tag, inner) => {
                let mut contents = Vec::new();
                write_octets(inner, &mut contents);
                write_element(tag, &contents, out);
            }
        }
    }
}

fn main() {
    let words: Vec<String> = std::env::args().collect();
    let bytes = std::fs::read(&words[2]).unwrap();
    let mut out = Vec::new();
    if words[1] == "text" {
        let mut trees = Vec::new();
        read_text(&bytes, 0, &mut trees);
        write_text(&trees, &mut out);
    } else {
        write_octets(&read_octets(&bytes), &mut out);
    }
    std::io::stdout().write_all(&out).unwrap();
}
