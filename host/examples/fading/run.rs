//! A burst sent, received, and judged.

use std::error::Error;

use niyumbek_host::{refine_with_channel, Answer, Burst, Constellation, Estimate, Layout};

use crate::channel::Channel;
use crate::code;
use crate::complex::Complex;
use crate::panel::Panel;
use crate::random::Random;
use crate::sent::Sent;

pub const LAYOUT: Layout = Layout::Slice;
/// As many data symbols as fit a record with their priors.
pub const NSYM: usize = 26;
const SPARSE: bool = true;
/// Power of the noise in a cell; the signal's is 1.
pub const NOISE: f64 = 0.2;

/// What was sent, through what, and what arrived.
pub struct Run {
    sent: Sent,
    channel: Channel,
    burst: Burst,
}

/// One judging.
pub struct Round {
    pub record: Vec<u8>,
    answer: Answer,
    estimates: Vec<Estimate>,
}

impl Run {
    /// A burst of random bits, sent over a random channel.
    pub fn new(random: &mut Random) -> Run {
        let sent = Sent::random(LAYOUT, NSYM, SPARSE, random);
        let channel = Channel::random(LAYOUT.carriers(), random);
        let received = sent.cells.iter().enumerate().map(|(i, &cell)| {
            let gain = channel.at(i % LAYOUT.carriers(), i / LAYOUT.carriers());
            let y = gain * cell + random.normal(NOISE);
            [y.re as f32, y.im as f32]
        });
        let burst = Burst::new(LAYOUT, Constellation::Qpsk, NSYM)
            .sparse(SPARSE)
            .k(40)
            .carrier_variances(vec![NOISE as f32; LAYOUT.carriers()])
            .cell_variances(vec![NOISE as f32; sent.places.len()])
            .grid(received.collect());
        Run { sent, channel, burst }
    }

    /// The next round: the first has no priors.
    pub fn judge(&self, last: Option<&Round>) -> Result<Round, Box<dyn Error>> {
        let priors = last.map_or(Vec::new(), |round| code::priors(&round.answer.likelihoods));
        let record = self.burst.clone().priors(priors).to_record()?;
        let (answer, estimates) = refine_with_channel(&record)?;
        Ok(Round { record, answer, estimates })
    }

    /// The round's line of the table.
    pub fn summary(&self, round: &Round) -> String {
        let Answer { model: (fd, tm), scale, spoilt, likelihoods } = &round.answer;
        let errors = self.wrong_bits(round).len();
        let mean = likelihoods.iter().map(|v| v.abs()).sum::<f32>() / likelihoods.len() as f32;
        format!(
            "{fd:3} {tm}  {scale:5.2}  {spoilt:6}  {errors:3} of {}  {:7} of {}  {mean:17.2}  {:10.1} dB",
            likelihoods.len(),
            self.wrong_message(round),
            self.sent.message.len(),
            self.channel_error_db(round)
        )
    }

    /// Bits whose likelihood has the wrong sign, or none.
    fn wrong_bits(&self, round: &Round) -> Vec<usize> {
        let decided = round.answer.bits().zip(&self.sent.bits);
        decided.enumerate().filter(|(_, (decided, &bit))| *decided != Some(bit)).map(|(i, _)| i).collect()
    }

    /// Bits of the message that the decoder gets wrong.
    fn wrong_message(&self, round: &Round) -> usize {
        let decoded = code::decode(&round.answer.likelihoods);
        decoded.iter().zip(&self.sent.message).filter(|(&v, &bit)| v == 0.0 || (v < 0.0) != bit).count()
    }

    /// Mean power of what the estimates are off by.
    fn channel_error_db(&self, round: &Round) -> f64 {
        let cells = self.sent.places.iter().zip(&round.estimates);
        let off = cells.map(|(&(carrier, symbol), estimate)| {
            (Complex::new(estimate.re.into(), estimate.im.into()) - self.channel.at(carrier, symbol)).power()
        });
        10.0 * (off.sum::<f64>() / self.sent.places.len() as f64).log10()
    }

    /// The true channel, at every cell.
    pub fn truth(&self) -> Panel {
        let mut panel = blank("true channel".into());
        for carrier in 0..LAYOUT.carriers() {
            for symbol in LAYOUT.leading_symbols()..self.burst.symbols() {
                panel.cells[place(carrier, symbol)] = Some(self.channel.at(carrier, symbol).power().sqrt());
            }
        }
        panel
    }

    /// The channel as a round estimates it, which is at the data cells only.
    pub fn panel(&self, number: usize, round: &Round) -> Panel {
        let wrong = self.wrong_bits(round);
        let mut panel = blank(format!("round {number}: {} bits wrong", wrong.len()));
        for (&(carrier, symbol), estimate) in self.sent.places.iter().zip(&round.estimates) {
            panel.cells[place(carrier, symbol)] = Some(estimate.magnitude().into());
        }
        for bit in wrong {
            let (carrier, symbol) = self.sent.places[self.sent.cell_of(bit)];
            panel.wrong[place(carrier, symbol)] = true;
        }
        panel
    }

    /// The panels side by side, a carrier to a line.
    pub fn print(&self, panels: &[Panel]) {
        print_line("    Hz", panels.iter().map(|panel| format!("{:NSYM$}", panel.title)));
        for row in 0..panels[0].rows() {
            let hz = self.channel.hz(LAYOUT.carriers() - 1 - row);
            print_line(&format!("{hz:+6.0}"), panels.iter().map(|panel| panel.text(row)));
        }
    }
}

fn print_line(start: &str, parts: impl Iterator<Item = String>) {
    let line = parts.fold(start.to_string(), |line, part| line + "   " + &part);
    println!("{}", line.trim_end());
}

fn blank(title: String) -> Panel {
    let cells = LAYOUT.carriers() * NSYM;
    Panel { title, columns: NSYM, cells: vec![None; cells], wrong: vec![false; cells] }
}

/// Where a panel has a cell: the highest carrier stands first.
fn place(carrier: usize, symbol: usize) -> usize {
    (LAYOUT.carriers() - 1 - carrier) * NSYM + symbol - LAYOUT.leading_symbols()
}
