//! (a) The proved library through its C interface (include/opacity.h).

use crate::automata::{Automaton, Secret};
use crate::canonical;
use crate::exploration::Exploration;
use crate::plain::{Judgement, Release};
use crate::witness;

type Decode = unsafe extern "C" fn(*const u8, usize, *mut u64, usize, *mut u8, usize) -> u8;
type Fresh = unsafe extern "C" fn(*const u64, usize, *const u8, usize, *const u8, usize, *mut u8, usize, *mut u8, usize) -> u8;
type Accept = unsafe extern "C" fn(*const u64, usize, *const u8, usize, u8, *mut u8, usize, *mut u8, usize) -> u8;
type Start = unsafe extern "C" fn(*const u64, usize, *const u8, usize, u8, *const u8, usize, *mut u8, usize) -> u8;
type Offer = unsafe extern "C" fn(*const u64, usize, *const u8, usize, u8, *mut u8, usize, *mut u8, usize, *mut u8, usize) -> u8;
type Explore = unsafe extern "C" fn(*const u64, usize, *const u8, usize, *const u8, usize, u32, *mut u8, usize) -> u8;
type FirstLeak = unsafe extern "C" fn(*const u64, usize, *const u8, usize, u8, *const u8, usize, *const u8, usize, *mut u8, usize) -> u8;
type Witness = unsafe extern "C" fn(*const u64, usize, *const u8, usize, u8, u8, u8, *const u8, usize, *mut u8, usize, *mut u8, usize) -> u8;
type CheckWitness = unsafe extern "C" fn(*const u64, usize, *const u8, usize, u8, u8, u8, u8, *const u8, usize, *const u8, usize, *mut u8, usize) -> u8;
type Canonical = unsafe extern "C" fn(*const u8, usize, *mut u8, usize, *mut u8, usize) -> u8;

extern "C" {
    fn opacity_decode(encoding: *const u8, _: usize, table: *mut u64, _: usize, header: *mut u8, _: usize) -> u8;
    fn opacity_fresh(
        table: *const u64, _: usize, header: *const u8, _: usize, further: *const u8, _: usize, estimator: *mut u8, _: usize, judgement: *mut u8,
        _: usize,
    ) -> u8;
    fn opacity_accept(
        table: *const u64, _: usize, header: *const u8, _: usize, symbol: u8, estimator: *mut u8, _: usize, judgement: *mut u8, _: usize,
    ) -> u8;
    fn opacity_start(
        table: *const u64, _: usize, header: *const u8, _: usize, notion: u8, further: *const u8, _: usize, enforcer: *mut u8, _: usize,
    ) -> u8;
    fn opacity_offer(
        table: *const u64, _: usize, header: *const u8, _: usize, symbol: u8, enforcer: *mut u8, _: usize, output: *mut u8, _: usize,
        release: *mut u8, _: usize,
    ) -> u8;
    fn opacity_explore(
        table: *const u64, _: usize, header: *const u8, _: usize, further: *const u8, _: usize, budget: u32, exploration: *mut u8, _: usize,
    ) -> u8;
    fn opacity_first_leak(
        table: *const u64, _: usize, header: *const u8, _: usize, notion: u8, further: *const u8, _: usize, symbols: *const u8, _: usize,
        place: *mut u8, _: usize,
    ) -> u8;
    fn opacity_canonical(encoding: *const u8, _: usize, output: *mut u8, _: usize, size: *mut u8, _: usize) -> u8;
    fn opacity_witness(
        table: *const u64, _: usize, header: *const u8, _: usize, notion: u8, secret: u8, k: u8, estimator: *const u8, _: usize, output: *mut u8,
        _: usize, run: *mut u8, _: usize,
    ) -> u8;
    fn opacity_check_witness(
        table: *const u64, _: usize, header: *const u8, _: usize, notion: u8, secret: u8, k: u8, start: u8, estimator: *const u8, _: usize,
        pairs: *const u8, _: usize, valid: *mut u8, _: usize,
    ) -> u8;
}

/// The ten functions, or stand-ins: the measuring of the stack compares the two.
#[derive(Clone, Copy)]
pub struct Functions {
    decode: Decode,
    fresh: Fresh,
    accept: Accept,
    start: Start,
    offer: Offer,
    explore: Explore,
    first_leak: FirstLeak,
    canonical: Canonical,
    witness: Witness,
    check_witness: CheckWitness,
}

pub const PROVED: Functions = Functions {
    decode: opacity_decode, fresh: opacity_fresh, accept: opacity_accept, start: opacity_start, offer: opacity_offer, explore: opacity_explore,
    first_leak: opacity_first_leak, canonical: opacity_canonical, witness: opacity_witness, check_witness: opacity_check_witness,
};

unsafe extern "C" fn no_decode(_: *const u8, _: usize, _: *mut u64, _: usize, _: *mut u8, _: usize) -> u8 {
    0
}
unsafe extern "C" fn no_fresh(
    _: *const u64, _: usize, _: *const u8, _: usize, _: *const u8, _: usize, _: *mut u8, _: usize, _: *mut u8, _: usize,
) -> u8 {
    0
}
unsafe extern "C" fn no_accept(_: *const u64, _: usize, _: *const u8, _: usize, _: u8, _: *mut u8, _: usize, _: *mut u8, _: usize) -> u8 {
    0
}
unsafe extern "C" fn no_start(_: *const u64, _: usize, _: *const u8, _: usize, _: u8, _: *const u8, _: usize, _: *mut u8, _: usize) -> u8 {
    0
}
unsafe extern "C" fn no_offer(
    _: *const u64, _: usize, _: *const u8, _: usize, _: u8, _: *mut u8, _: usize, _: *mut u8, _: usize, _: *mut u8, _: usize,
) -> u8 {
    0
}
unsafe extern "C" fn no_explore(_: *const u64, _: usize, _: *const u8, _: usize, _: *const u8, _: usize, _: u32, _: *mut u8, _: usize) -> u8 {
    0
}
unsafe extern "C" fn no_first_leak(
    _: *const u64, _: usize, _: *const u8, _: usize, _: u8, _: *const u8, _: usize, _: *const u8, _: usize, _: *mut u8, _: usize,
) -> u8 {
    0
}

unsafe extern "C" fn no_canonical(_: *const u8, _: usize, _: *mut u8, _: usize, _: *mut u8, _: usize) -> u8 {
    0
}

unsafe extern "C" fn no_witness(
    _: *const u64, _: usize, _: *const u8, _: usize, _: u8, _: u8, _: u8, _: *const u8, _: usize, _: *mut u8, _: usize, _: *mut u8, _: usize,
) -> u8 {
    0
}

unsafe extern "C" fn no_check_witness(
    _: *const u64, _: usize, _: *const u8, _: usize, _: u8, _: u8, _: u8, _: u8, _: *const u8, _: usize, _: *const u8, _: usize, _: *mut u8, _: usize,
) -> u8 {
    0
}

/// Functions that do nothing.
pub const NOTHING: Functions = Functions {
    decode: no_decode, fresh: no_fresh, accept: no_accept, start: no_start, offer: no_offer, explore: no_explore, first_leak: no_first_leak,
    canonical: no_canonical, witness: no_witness, check_witness: no_check_witness,
};

pub const WEAK: u8 = 0;
pub const STRONG: u8 = 1;

/// What a gateway lends: the table, the header, the further secrets, the saved states and what is written for it.
pub struct Library {
    table: Vec<u64>,
    header: [u8; 46],
    further: [u8; 28],
    estimator: [u8; 172],
    judgement: [u8; 9],
    enforcer: [u8; 206],
    output: [u8; 17],
    release: [u8; 2],
    exploration: [u8; 4],
    place: [u8; 8],
    form: [u8; canonical::MOST],
    size: [u8; 8],
    pairs: [u8; witness::OUTPUT],
    run: [u8; 3],
    valid: [u8; 1],
}

impl Library {
    /// With the automaton's own secret alone.
    pub fn new(automaton: &Automaton) -> Self {
        Library::with(automaton, &[])
    }

    /// With further secrets, up to three. Decodes the automaton's encoding; a table that no encoding can list is lent as it is.
    pub fn with(automaton: &Automaton, further: &[Secret]) -> Self {
        let mut made = Library {
            table: vec![0; 2048], header: [0; 46], further: [0; 28], estimator: [0; 172], judgement: [0; 9], enforcer: [0; 206], output: [0; 17],
            release: [0; 2], exploration: [0; 4], place: [0; 8], form: [0; canonical::MOST], size: [0; 8],
            pairs: [0; witness::OUTPUT], run: [0; 3], valid: [0],
        };
        made.further[0] = further.len() as u8;
        for (place, secret) in made.further[1..].chunks_exact_mut(9).zip(further) {
            place[..8].copy_from_slice(&secret.states.to_le_bytes());
            place[8] = secret.k;
        }
        match automaton.encode() {
            Some(encoding) => {
                assert_eq!(made.call_decode(&PROVED, &encoding), 0, "decode");
                assert!(made.table[..] == automaton.lent().0[..], "decode: the table");
            }
            None => {
                assert!(automaton.shared.is_none(), "an encoding can list it");
                made.table.copy_from_slice(&automaton.table[..]);
                made.header[0] = automaton.initial;
                made.header[1] = automaton.k;
                made.header[2..10].copy_from_slice(&automaton.secret.to_le_bytes());
                made.header[10..14].copy_from_slice(&automaton.observable.to_le_bytes());
                for event in 0..32 {
                    made.header[14 + event] = event as u8;
                }
            }
        }
        made
    }

    #[inline(always)]
    pub fn call_decode(&mut self, functions: &Functions, encoding: &[u8]) -> u8 {
        let (table, header) = (&mut self.table, &mut self.header);
        unsafe { (functions.decode)(encoding.as_ptr(), encoding.len(), table.as_mut_ptr(), table.len(), header.as_mut_ptr(), header.len()) }
    }

    #[inline(always)]
    pub fn call_fresh(&mut self, functions: &Functions) -> u8 {
        let (table, header, further, estimator, judgement) = (&self.table, &self.header, &self.further, &mut self.estimator, &mut self.judgement);
        unsafe {
            (functions.fresh)(
                table.as_ptr(), table.len(), header.as_ptr(), header.len(), further.as_ptr(), further.len(), estimator.as_mut_ptr(),
                estimator.len(), judgement.as_mut_ptr(), judgement.len(),
            )
        }
    }

    #[inline(always)]
    pub fn call_accept(&mut self, functions: &Functions, symbol: u8) -> u8 {
        let (table, header, estimator, judgement) = (&self.table, &self.header, &mut self.estimator, &mut self.judgement);
        unsafe {
            (functions.accept)(
                table.as_ptr(), table.len(), header.as_ptr(), header.len(), symbol, estimator.as_mut_ptr(), estimator.len(),
                judgement.as_mut_ptr(), judgement.len(),
            )
        }
    }

    #[inline(always)]
    pub fn call_start(&mut self, functions: &Functions, notion: u8) -> u8 {
        let (table, header, further, enforcer) = (&self.table, &self.header, &self.further, &mut self.enforcer);
        unsafe {
            (functions.start)(
                table.as_ptr(), table.len(), header.as_ptr(), header.len(), notion, further.as_ptr(), further.len(), enforcer.as_mut_ptr(),
                enforcer.len(),
            )
        }
    }

    #[inline(always)]
    pub fn call_offer(&mut self, functions: &Functions, symbol: u8) -> u8 {
        let (table, header, enforcer, output, release) = (&self.table, &self.header, &mut self.enforcer, &mut self.output, &mut self.release);
        unsafe {
            (functions.offer)(
                table.as_ptr(), table.len(), header.as_ptr(), header.len(), symbol, enforcer.as_mut_ptr(), enforcer.len(), output.as_mut_ptr(),
                output.len(), release.as_mut_ptr(), release.len(),
            )
        }
    }

    #[inline(always)]
    pub fn call_explore(&mut self, functions: &Functions, budget: u32) -> u8 {
        let (table, header, further, exploration) = (&self.table, &self.header, &self.further, &mut self.exploration);
        unsafe {
            (functions.explore)(
                table.as_ptr(), table.len(), header.as_ptr(), header.len(), further.as_ptr(), further.len(), budget, exploration.as_mut_ptr(),
                exploration.len(),
            )
        }
    }

    #[inline(always)]
    pub fn call_first_leak(&mut self, functions: &Functions, notion: u8, symbols: &[u8]) -> u8 {
        let (table, header, further, place) = (&self.table, &self.header, &self.further, &mut self.place);
        unsafe {
            (functions.first_leak)(
                table.as_ptr(), table.len(), header.as_ptr(), header.len(), notion, further.as_ptr(), further.len(), symbols.as_ptr(),
                symbols.len(), place.as_mut_ptr(), place.len(),
            )
        }
    }

    /// With so many bytes of space.
    #[inline(always)]
    pub fn call_canonical(&mut self, functions: &Functions, encoding: &[u8], space: usize) -> u8 {
        let (form, size) = (&mut self.form[..space], &mut self.size);
        unsafe { (functions.canonical)(encoding.as_ptr(), encoding.len(), form.as_mut_ptr(), form.len(), size.as_mut_ptr(), size.len()) }
    }

    #[inline(always)]
    pub fn call_witness(&mut self, functions: &Functions, notion: u8, secret: u8, k: u8) -> u8 {
        let (table, header, estimator, pairs, run) = (&self.table, &self.header, &self.estimator, &mut self.pairs, &mut self.run);
        unsafe {
            (functions.witness)(
                table.as_ptr(), table.len(), header.as_ptr(), header.len(), notion, secret, k, estimator.as_ptr(), estimator.len(),
                pairs.as_mut_ptr(), pairs.len(), run.as_mut_ptr(), run.len(),
            )
        }
    }

    #[inline(always)]
    pub fn call_check_witness(&mut self, functions: &Functions, notion: u8, secret: u8, k: u8, start: u8, pairs: &[u8]) -> u8 {
        let (table, header, estimator, valid) = (&self.table, &self.header, &self.estimator, &mut self.valid);
        unsafe {
            (functions.check_witness)(
                table.as_ptr(), table.len(), header.as_ptr(), header.len(), notion, secret, k, start, estimator.as_ptr(), estimator.len(),
                pairs.as_ptr(), pairs.len(), valid.as_mut_ptr(), valid.len(),
            )
        }
    }

    /// What was told last of the secret with a number: its two verdicts, and the estimate size.
    pub fn told(&self, number: usize) -> Judgement {
        [self.judgement[2 * number], self.judgement[2 * number + 1], self.judgement[8]]
    }

    pub fn fresh(&mut self) -> Judgement {
        assert_eq!(self.call_fresh(&PROVED), 0, "fresh");
        self.told(0)
    }

    /// The two verdicts of the automaton's own secret and the estimate size, or the number of the refusal.
    pub fn accept(&mut self, symbol: u8) -> Result<Judgement, u8> {
        match self.call_accept(&PROVED, symbol) {
            0 => Ok(self.told(0)),
            refusal => Err(refusal),
        }
    }

    pub fn start(&mut self, notion: u8) {
        assert_eq!(self.call_start(&PROVED, notion), 0, "start");
    }

    /// The released symbols and the estimate size, or the number of the refusal.
    pub fn offer(&mut self, symbol: u8) -> Result<Release<'_>, u8> {
        match self.call_offer(&PROVED, symbol) {
            0 => Ok((&self.output[..self.release[0] as usize], self.release[1])),
            refusal => Err(refusal),
        }
    }

    /// A refused one leaves its bytes, which is tested here.
    pub fn explore(&mut self, budget: u32) -> Exploration {
        const BEFORE: [u8; 4] = [0xa5; 4];
        self.exploration = BEFORE;
        let answer = self.call_explore(&PROVED, budget);
        let [low, high, weak, strong] = self.exploration;
        match answer {
            0 => Ok((u16::from_le_bytes([low, high]) as usize, weak, strong)),
            refusal => {
                assert_eq!(self.exploration, BEFORE, "refused, and written");
                Err(refusal)
            }
        }
    }

    /// The place of the first leak among the symbols, or none.
    pub fn first_leak(&mut self, notion: u8, symbols: &[u8]) -> Option<u64> {
        assert_eq!(self.call_first_leak(&PROVED, notion, symbols), 0, "first leak");
        Some(u64::from_le_bytes(self.place)).filter(|&place| place != 0)
    }

    /// The canonical form of an encoding in so many bytes of space, or the number of the refusal. What is not written is kept.
    pub fn canonical(&mut self, encoding: &[u8], space: usize) -> Result<&[u8], u8> {
        const BEFORE: u8 = 0xbf;
        (self.form, self.size) = ([BEFORE; canonical::MOST], [BEFORE; 8]);
        let answer = self.call_canonical(&PROVED, encoding, space);
        let written = if answer == 0 { u64::from_le_bytes(self.size) as usize } else { 0 };
        assert!(self.form[written..].iter().all(|&byte| byte == BEFORE), "written behind the form");
        if answer == 0 {
            return Ok(&self.form[..written]);
        }
        assert_eq!(self.size, [BEFORE; 8], "refused, and written");
        Err(answer)
    }

    /// A witness of the trace so far, or the number of the refusal. What is not written is kept.
    pub fn witness(&mut self, notion: u8, secret: u8, k: u8) -> Result<witness::Run, u8> {
        const BEFORE: u8 = 0xbf;
        (self.pairs, self.run) = ([BEFORE; witness::OUTPUT], [BEFORE; 3]);
        let answer = self.call_witness(&PROVED, notion, secret, k);
        let written = if answer == 0 { 2 * u16::from_le_bytes([self.run[1], self.run[2]]) as usize } else { 0 };
        assert!(written <= 2 * witness::MOST, "too many pairs");
        assert!(self.pairs[written..].iter().all(|&byte| byte == BEFORE), "written behind the pairs");
        if answer == 0 {
            return Ok((self.run[0], self.pairs[..written].to_vec()));
        }
        assert_eq!(self.run, [BEFORE; 3], "refused, and written");
        Err(answer)
    }

    /// Whether a start and pairs are one.
    pub fn check_witness(&mut self, notion: u8, secret: u8, k: u8, start: u8, pairs: &[u8]) -> bool {
        self.valid = [0xbf];
        assert_eq!(self.call_check_witness(&PROVED, notion, secret, k, start, pairs), 0, "check");
        assert!(self.valid[0] <= 1, "neither yes nor no");
        self.valid[0] == 1
    }
}
