//! Document 02, 2.12: test loads, written here from the document, and the library's beside them.

use crate::compare::{report, Call};
use crate::random::Random;
use crate::sheet::{Mode, ANSWER_BYTES, WORK_WORDS};

/// A seed, a number of policies and a buffer; number, line and length.
pub type Load = fn(u64, u32, &mut [u8]) -> [u32; 3];

/// The most policies of a test load.
pub const MOST: u32 = 64;

/// The bytes of a buffer that is long enough for every test load.
pub const BYTES: usize = 16384;

/// A byte that no sheet has, in all places of a lent buffer.
const MARK: u8 = 255;

const TEXTS: &str = "sheet=partial/text=Client/text=Action/text=Tariff/text=quote/text=name/";
const REST: &str = "kind=0,e/kind=1,a/kind=2,e/type=bool/type=string/type=record/type=record,4,r,1/shape=2,-/shape=2,-/shape=2,-/value=bool,0/value=bool,1/principal=0,?/action=1,3/resource=2,?/context=3,?/day=2000-01-01/";

/// "For each draw 11400714819323198485 is added, and the sum is taken modulo 18446744073709551616; the draw is the state divided by
/// 4294967296, rounded down, then its rest by the number of choices."
fn draw(state: &mut u64, choices: u64) -> u64 {
    *state = ((*state as u128 + 11400714819323198485) % 18446744073709551616) as u64;
    *state / 4294967296 % choices
}

/// The sheet that a seed and a number of policies name.
pub fn sheet(seed: u64, policies: u32) -> Vec<u8> {
    let (mut state, mut ids, mut nodes, mut rules) = (seed, String::new(), Vec::new(), String::new());
    for place in 0..policies {
        let effect = ["permit", "forbid"][draw(&mut state, 2) as usize];
        let first = nodes.len();
        match draw(&mut state, 3) {
            0 => nodes.push("node=0,lit,1/".to_string()),
            1 => nodes.push("node=0,lit,0/".to_string()),
            _ => {
                nodes.extend(["node=3,var,c/".into(), format!("node=1,get,{first},4/"), format!("node=0,like,{},*/", first + 1)])
            }
        }
        ids += &format!("text=p{place}/");
        rules += &format!("policy={},{effect},{}/", 5 + place, nodes.len() - 1);
    }
    format!("{TEXTS}{ids}{REST}{}{rules}", nodes.concat()).replace('/', "\n").into_bytes()
}

/// Number, line and length of a call, and all bytes of its buffer after it.
fn wanted(seed: u64, policies: u32, lent: usize) -> ([u32; 3], Vec<u8>) {
    let mut out = vec![MARK; lent];
    if !(1..=MOST).contains(&policies) {
        return ([13, 0, 0], out);
    }
    let sheet = sheet(seed, policies);
    let length = sheet.len() as u32;
    if lent < sheet.len() {
        return ([10, 0, length], out);
    }
    out[..sheet.len()].copy_from_slice(&sheet);
    ([0, 0, length], out)
}

#[derive(Default)]
pub struct Counts {
    calls: usize,
    accepted: usize,
    pub differences: usize,
}

impl Counts {
    pub fn line(&self) -> String {
        format!("{} calls, {} differences; {} test loads accepted", self.calls, self.differences, self.accepted)
    }

    fn see(&mut self, load: Load, seed: u64, policies: u32, lent: usize) {
        let mut out = vec![MARK; lent];
        let returned = load(seed, policies, &mut out);
        self.calls += 1;
        if (returned, out) != wanted(seed, policies, lent) {
            report(&mut self.differences, format!("seed {seed}, {policies} policies, {lent} bytes: {returned:?}"));
        }
    }
}

/// The library's test loads of so many seeds, some at edges, with every number of policies: each must be the document's, and be accepted
/// with an answer of at most as many bytes. Then other numbers of policies, and buffers that just fit and that do not.
pub fn compare(load: Load, call: Call, count: u64, seed: u64) -> Counts {
    let (mut first, mut second, mut answer) = (vec![0; WORK_WORDS], vec![0; WORK_WORDS], vec![0; ANSWER_BYTES]);
    let mut counts = Counts::default();
    let edges = [0, 1, u64::MAX, 7046029254386353131, 7046029258681320426, 7046029258681320427];
    for n in 0..count {
        let mut random = Random::of(seed, n);
        let seed = edges.get(n as usize).copied().unwrap_or(random.next());
        for policies in 1..=MOST {
            counts.see(load, seed, policies, BYTES);
            let [number, _, _] = call(Mode::Partial, &sheet(seed, policies), &mut first, &mut second, &mut answer[..BYTES]);
            if number == 0 {
                counts.accepted += 1;
            } else {
                report(&mut counts.differences, format!("seed {seed}, {policies} policies: not accepted"));
            }
        }
        let policies = random.from(1, MOST as usize) as u32;
        let length = sheet(seed, policies).len();
        for lent in [0, random.below(length), length - 1, length] {
            counts.see(load, seed, policies, lent);
        }
        for policies in [0, MOST + 1, random.from(65, 4294967295) as u32, u32::MAX] {
            counts.see(load, seed, policies, random.pick(&[0, BYTES]));
        }
    }
    counts
}

#[cfg(test)]
mod tests {
    use super::*;

    /// Draws by hand: 2654435769 is odd, 1013904242 has the rest 2 by 3.
    #[test]
    fn by_hand() {
        assert!(sheet(0, 1).ends_with(b"node=3,var,c\nnode=1,get,0,4\nnode=0,like,1,*\npolicy=5,forbid,2\n"));
        assert_eq!(sheet(0, 64), sheet(u64::MAX, 64));
    }

    /// The comparison finds another constant and a byte past the sheet.
    #[test]
    fn differences_are_found() {
        fn right(seed: u64, policies: u32, out: &mut [u8]) -> [u32; 3] {
            let (returned, bytes) = wanted(seed, policies, out.len());
            out.copy_from_slice(&bytes);
            returned
        }
        fn another(seed: u64, policies: u32, out: &mut [u8]) -> [u32; 3] {
            right(seed ^ 1 << 40, policies, out)
        }
        fn past(seed: u64, policies: u32, out: &mut [u8]) -> [u32; 3] {
            let returned = right(seed, policies, out);
            if let Some(byte) = out.last_mut() {
                *byte = 10;
            }
            returned
        }
        let call = crate::run::call;
        assert_eq!(compare(right, call, 8, 1).differences, 0);
        assert!(compare(another, call, 8, 1).differences > 0);
        assert!(compare(past, call, 2, 1).differences > 0);
    }
}
