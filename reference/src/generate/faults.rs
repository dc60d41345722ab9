//! Texts with one fault or two, each a "no" to a question from 1 to 7, in every
//! way that a question can be answered by no.

use crate::reading::*;

/// A text under way: what stands before it, its definitions and its located
/// processes, its last sign, and how many bytes it has at least.
struct Text {
    front: String,
    definitions: Vec<String>,
    located: Vec<String>,
    end: String,
    length: usize,
}

impl Text {
    fn bytes(&self) -> Vec<u8> {
        let definitions: String = self.definitions.iter().map(|d| format!("{d}.\n")).collect();
        let network = self.located.join("|");
        let mut text = format!("{}{definitions}{network}{}", self.front, self.end).into_bytes();
        text.resize(self.length.max(text.len()), b' ');
        text
    }
}

/// A fault, with the number of the question that it is about.
pub struct Fault {
    pub number: u8,
    pub name: &'static str,
    add: fn(&mut Text),
}

fn fault(number: u8, name: &'static str, add: fn(&mut Text)) -> Fault {
    Fault { number, name, add }
}

/// The text with these faults, put in one after the other.
pub fn text(faults: &[&Fault]) -> Vec<u8> {
    let mut text = Text {
        front: String::new(),
        definitions: vec!["Base(x)=go(0,x,stop)".to_string()],
        located: vec!["A[Base(A)|in(c,1,y,Base(y),stop)]".to_string()],
        end: ".".to_string(),
        length: 0,
    };
    faults.iter().for_each(|fault| (fault.add)(&mut text));
    text.bytes()
}

pub fn all() -> Vec<Fault> {
    vec![
        fault(1, "blanks behind", |t| t.length = MOST_BYTES + 1),
        fault(1, "line feeds in front", |t| {
            t.front = "\n".repeat(MOST_BYTES);
        }),
        fault(2, "no last sign", |t| t.end.clear()),
        fault(2, "one sign more", |t| t.end.push('.')),
        fault(2, "a byte in front", |t| t.front.insert(0, '\t')),
        fault(2, "a byte at the end", |t| t.end.push('\0')),
        fault(2, "no part", |t| located(t, "A[]")),
        fault(2, "a word that is no name", |t| located(t, "S[stop]")),
        fault(2, "a location with a small letter", |t| {
            located(t, "a[stop]")
        }),
        fault(2, "a timer too large", |t| {
            located(t, "A[go(1000001,A,stop)]")
        }),
        fault(2, "a zero in front", |t| located(t, "A[go(00,A,stop)]")),
        fault(2, "a name too long", |t| {
            definition(t, "n2345678901234567=stop")
        }),
        fault(2, "brackets with nothing inside", |t| {
            definition(t, "None()=stop")
        }),
        fault(3, "nesting in a located process", |t| {
            located(t, &format!("A[{}]", nested("go(0,A,", ")")));
        }),
        fault(3, "nesting in a body, in Q", |t| {
            definition(t, &format!("Deep={}", nested("out(c,0,A,stop,", ")")));
        }),
        fault(4, "definitions", |t| {
            (0..MOST_DEFINITIONS).for_each(|k| definition(t, &format!("I{k}=stop")));
        }),
        fault(4, "parameters", |t| definition(t, "Five(a,b,c,d,e)=stop")),
        fault(4, "parts", |t| {
            definition(
                t,
                &format!("Wide={}", many(MOST_PARTS, |_| "stop".to_string())),
            );
        }),
        fault(4, "channels", |t| {
            let input = |k| format!("in(k{k},0,x,stop,stop)");
            located(t, &format!("A[{}]", many(MOST_CHANNELS, input)));
        }),
        fault(4, "locations", |t| {
            let step = |k| format!("go(1,L{k},stop)");
            definition(t, &format!("Far={}", many(MOST_LOCATIONS, step)));
        }),
        fault(4, "components", |t| {
            located(
                t,
                &format!("A[{}]", many(MOST_COMPONENTS, |_| "stop".to_string())),
            );
        }),
        fault(4, "variables", |t| {
            let inputs: String = (0..=MOST_VARIABLES)
                .map(|k| format!("in(c,0,v{k},"))
                .collect();
            let ends = ",stop)".repeat(MOST_VARIABLES + 1);
            located(t, &format!("A[{inputs}stop{ends}]"));
        }),
        fault(5, "an identifier twice", |t| definition(t, "Base=stop")),
        fault(5, "a parameter twice", |t| {
            definition(t, "Twice(x,y,x)=stop")
        }),
        fault(6, "not defined", |t| located(t, "A[Nobody]")),
        fault(6, "no arguments", |t| located(t, "A[Base]")),
        fault(6, "five arguments", |t| located(t, "A[Base(A,A,A,A,A)]")),
        fault(6, "two arguments in a body", |t| {
            definition(t, "Calls=Base(A,A)")
        }),
        fault(7, "not bound", |t| located(t, "A[go(0,x,stop)]")),
        fault(7, "not bound in Q", |t| {
            located(t, "A[in(c,0,x,stop,go(0,x,stop))]")
        }),
        fault(7, "bound in another body", |t| {
            definition(t, "Free=out(x,0,x,stop,stop)")
        }),
    ]
}

fn definition(text: &mut Text, definition: &str) {
    text.definitions.push(definition.to_string());
}

fn located(text: &mut Text, located: &str) {
    text.located.push(located.to_string());
}

fn many(count: usize, piece: impl Fn(usize) -> String) -> String {
    (0..count).map(piece).collect::<Vec<_>>().join("|")
}

/// One level too many.
fn nested(open: &str, close: &str) -> String {
    let levels = MOST_NESTING;
    format!("{}stop{}", open.repeat(levels), close.repeat(levels))
}
