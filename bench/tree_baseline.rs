//! What `msat tree TEXT` does of a text that breaks no rule, by plain Rust, to be measured beside the proved program: it reads the text, types each
//! node by BIP 379's tables, and writes a line for each. Whether the text is sane isn't asked.
//! Usage: tree_baseline TEXT. The exit status is 0, or 2 where `refused` is printed.

use std::process::exit;

/// A type: the base, and which of z, o, n, d, u, s, f, e hold.
#[derive(Clone, Copy, Default)]
struct Type {
    base: u8,
    z: bool,
    o: bool,
    n: bool,
    d: bool,
    u: bool,
    s: bool,
    f: bool,
    e: bool,
}

fn typed(letters: &str) -> Type {
    let has = |letter| letters.contains(letter);
    let base = letters.as_bytes()[0];
    Type { base, z: has('z'), o: has('o'), n: has('n'), d: has('d'), u: has('u'), s: has('s'), f: has('f'), e: has('e') }
}

fn if_so(so: bool, ty: Type) -> Option<Type> {
    so.then_some(ty)
}

fn is_bdu(x: Type) -> bool {
    x.base == b'B' && x.d && x.u
}

fn and_or(x: Type, y: Type, z: Type) -> Option<Type> {
    let so = is_bdu(x) && y.base == z.base && y.base != b'W' && x.e && (x.s || y.s || z.s);
    let ty = Type {
        base: y.base,
        z: x.z && y.z && z.z,
        o: x.z && y.o && z.o || x.o && y.z && z.z,
        n: false,
        d: z.d,
        u: y.u && z.u,
        s: z.s && (x.s || y.s),
        f: z.f && (x.s || y.f),
        e: z.e && (x.s || y.f),
    };
    if_so(so, ty)
}

fn two(name: &str, x: Type, y: Type) -> Option<Type> {
    let both = Type { z: x.z && y.z, o: x.z && y.o || x.o && y.z, ..Type::default() };
    let choice = Type { s: x.s && y.s, ..both };
    match name {
        "and_v" => if_so(
            x.base == b'V' && matches!(y.base, b'B' | b'K' | b'V'),
            Type { base: y.base, n: x.n || x.z && y.n, u: y.u, s: x.s || y.s, f: x.s || y.f, ..both },
        ),
        "and_b" => if_so(
            x.base == b'B' && y.base == b'W',
            Type {
                base: b'B',
                n: x.n || x.z && y.n,
                d: x.d && y.d,
                u: true,
                s: x.s || y.s,
                f: x.f && y.f || x.s && x.f || y.s && y.f,
                e: x.e && y.e && x.s && y.s,
                ..both
            },
        ),
        "or_b" => if_so(
            x.base == b'B' && x.d && y.base == b'W' && y.d && x.e && y.e && (x.s || y.s),
            Type { base: b'B', d: true, u: true, e: true, ..choice },
        ),
        "or_c" => if_so(
            is_bdu(x) && y.base == b'V' && x.e && (x.s || y.s),
            Type { base: b'V', o: x.o && y.z, f: true, ..choice },
        ),
        "or_d" => if_so(
            is_bdu(x) && y.base == b'B' && x.e && (x.s || y.s),
            Type { base: b'B', o: x.o && y.z, d: y.d, u: y.u, f: y.f, e: y.e, ..choice },
        ),
        _ => if_so(
            x.base == y.base && x.base != b'W' && (x.s || y.s),
            Type {
                base: x.base,
                z: false,
                o: x.z && y.z,
                d: x.d || y.d,
                u: x.u && y.u,
                f: x.f && y.f,
                e: x.e && y.f || x.f && y.e,
                ..choice
            },
        ),
    }
}

fn wrapped(letter: u8, x: Type) -> Option<Type> {
    let is_b = x.base == b'B';
    match letter {
        b'a' => if_so(is_b, Type { base: b'W', z: false, o: false, n: false, ..x }),
        b's' => if_so(is_b && x.o, Type { base: b'W', z: false, o: false, n: false, ..x }),
        b'c' => if_so(x.base == b'K', Type { base: b'B', u: true, s: true, ..x }),
        b'd' => if_so(x.base == b'V' && x.z, Type { base: b'B', z: false, o: true, n: true, d: true, u: false, f: false, e: true, ..x }),
        b'v' => if_so(is_b, Type { base: b'V', d: false, u: false, f: true, e: false, ..x }),
        b'j' => if_so(is_b && x.n, Type { z: false, n: true, d: true, f: false, e: x.f, ..x }),
        _ => if_so(is_b, Type { u: true, n: x.n, ..x }),
    }
}

/// What is known of a threshold's children so far.
fn threshold(k: usize, children: &[Type]) -> Option<Type> {
    let (first, others) = children.split_first()?;
    let signed = children.iter().filter(|it| it.s).count();
    let sizes: usize = children.iter().map(|it| if it.z { 0 } else if it.o { 1 } else { 2 }).sum();
    let so = 1 <= k
        && k <= children.len()
        && is_bdu(*first)
        && others.iter().all(|it| it.base == b'W' && it.d && it.u)
        && children.iter().all(|it| it.e)
        && children.len() - signed <= k;
    let ty = Type { base: b'B', z: sizes == 0, o: sizes == 1, d: true, u: true, s: children.len() - signed < k, e: signed == children.len(), ..Type::default() };
    if_so(so, ty)
}

/// A line: its place and depth, its type, and what the node is.
struct Line {
    place: usize,
    depth: usize,
    ty: Type,
    head: String,
}

struct Reader<'t> {
    text: &'t str,
    at: usize,
    lines: Vec<Line>,
}

impl<'t> Reader<'t> {
    fn word(&mut self) -> &'t str {
        let rest = &self.text[self.at..];
        let length = rest.bytes().position(|it| b"(),:".contains(&it)).unwrap_or(rest.len());
        self.at += length;
        &rest[..length]
    }

    fn take(&mut self, letter: u8) -> Option<()> {
        let so = self.text.as_bytes().get(self.at) == Some(&letter);
        self.at += so as usize;
        so.then_some(())
    }

    fn line(&mut self, place: usize, depth: usize, head: &str) -> usize {
        self.lines.push(Line { place, depth, ty: Type::default(), head: head.to_string() });
        self.lines.len() - 1
    }

    fn leaf(&mut self, place: usize, depth: usize, head: &str, letters: &str) -> Type {
        let own = self.line(place, depth, head);
        self.lines[own].ty = typed(letters);
        self.lines[own].ty
    }

    fn set(&mut self, own: usize, ty: Option<Type>) -> Option<Type> {
        self.lines[own].ty = ty?;
        ty
    }

    fn expression(&mut self, depth: usize) -> Option<Type> {
        let start = self.at;
        let word = self.word();
        if self.take(b':').is_some() { self.letters(start, word.as_bytes(), depth) } else { self.fragment(start, word, depth) }
    }

    fn letters(&mut self, place: usize, letters: &[u8], depth: usize) -> Option<Type> {
        let Some((letter, rest)) = letters.split_first() else { return self.expression(depth) };
        let name = match letter {
            b't' => "and_v",
            b'l' | b'u' => "or_i",
            _ => std::str::from_utf8(std::slice::from_ref(letter)).ok()?,
        };
        let own = self.line(place, depth, name);
        let zero = if *letter == b'l' { Some(self.leaf(place, depth + 1, "0", "Bzduse")) } else { None };
        let x = self.letters(place + 1, rest, depth + 1)?;
        let ty = match letter {
            b't' => two("and_v", x, self.leaf(place, depth + 1, "1", "Bzuf")),
            b'l' => two("or_i", zero?, x),
            b'u' => two("or_i", x, self.leaf(place, depth + 1, "0", "Bzduse")),
            _ => wrapped(*letter, x),
        };
        self.set(own, ty)
    }

    /// An argument that is no expression, in lower case.
    fn argument(&mut self) -> String {
        self.word().to_ascii_lowercase()
    }

    fn fragment(&mut self, place: usize, name: &str, depth: usize) -> Option<Type> {
        if name == "0" || name == "1" {
            return Some(self.leaf(place, depth, name, if name == "0" { "Bzduse" } else { "Bzuf" }));
        }
        self.take(b'(')?;
        let ty = match name {
            "pk" | "pkh" => {
                let own = self.line(place, depth, "c");
                let (name, letters) = if name == "pk" { ("pk_k", "Konduse") } else { ("pk_h", "Knduse") };
                let head = format!("{name} {}", self.argument());
                let x = self.leaf(place, depth + 1, &head, letters);
                self.set(own, wrapped(b'c', x))?
            }
            "pk_k" | "pk_h" | "older" | "after" | "sha256" | "hash256" | "ripemd160" | "hash160" => {
                let letters = match name {
                    "pk_k" => "Konduse",
                    "pk_h" => "Knduse",
                    "older" | "after" => "Bzf",
                    _ => "Bondu",
                };
                let head = format!("{name} {}", self.argument());
                self.leaf(place, depth, &head, letters)
            }
            "multi" => {
                let mut head = format!("multi {}", self.argument());
                while self.take(b',').is_some() {
                    head = head + " " + &self.argument();
                }
                self.leaf(place, depth, &head, "Bnduse")
            }
            "thresh" => {
                let k = self.argument();
                let own = self.line(place, depth, &format!("thresh {k}"));
                let mut children = Vec::new();
                while self.take(b',').is_some() {
                    children.push(self.expression(depth + 1)?);
                }
                self.set(own, threshold(k.parse().ok()?, &children))?
            }
            _ => {
                let own = self.line(place, depth, if name == "and_n" { "andor" } else { name });
                let x = self.expression(depth + 1)?;
                self.take(b',')?;
                let y = self.expression(depth + 1)?;
                let ty = match name {
                    "andor" => {
                        self.take(b',')?;
                        let z = self.expression(depth + 1)?;
                        and_or(x, y, z)
                    }
                    "and_n" => and_or(x, y, self.leaf(place, depth + 1, "0", "Bzduse")),
                    _ => two(name, x, y),
                };
                self.set(own, ty)?
            }
        };
        self.take(b')')?;
        Some(ty)
    }
}

fn put_type(out: &mut String, ty: Type) {
    out.push(ty.base as char);
    let letters = [(ty.z, 'z'), (ty.o, 'o'), (ty.n, 'n'), (ty.d, 'd'), (ty.u, 'u'), (ty.s, 's'), (ty.f, 'f'), (ty.e, 'e')];
    for (holds, letter) in letters {
        if holds {
            out.push(letter);
        }
    }
}

fn main() {
    let text = std::env::args().nth(1).unwrap_or_default();
    let mut reader = Reader { text: &text, at: 0, lines: Vec::new() };
    if reader.expression(0).is_none() || reader.at != text.len() {
        println!("refused");
        exit(2);
    }
    let mut out = String::new();
    for line in &reader.lines {
        out.push_str("node ");
        out.push_str(&line.place.to_string());
        out.push(' ');
        out.push_str(&line.depth.to_string());
        out.push(' ');
        put_type(&mut out, line.ty);
        out.push(' ');
        out.push_str(&line.head);
        out.push('\n');
    }
    print!("{out}");
}
