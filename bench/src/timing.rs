//! Contenders take turns, go after go, and what is compared is compared within a round.

/// So many rounds of short goes, so that what else the machine does seldom falls into most of them; fewer where a round
/// takes long.
const ROUNDS: usize = 81;
const LEAST_ROUNDS: usize = 7;
const MOST_SECONDS: f64 = 1.5;
/// About how long a go is, in seconds.
const GO: f64 = 0.0015;

/// What was measured of one job, by contender: the library is the first.
pub struct Measured {
    /// Seconds a call, the median of the rounds.
    pub seconds: Vec<f64>,
    /// The contender's time over the library's: the median of the rounds, and the quarters beside it.
    pub ratios: Vec<[f64; 3]>,
}

/// The contender of this number does the job so many times.
pub type Job<'a> = &'a mut dyn FnMut(usize, usize);

/// Answers a time in seconds; only differences mean something.
pub type Clock = fn() -> f64;

extern "C" {
    /// Linux's numbers: seconds and billionths of one.
    fn clock_gettime(clock: i32, time: *mut [i64; 2]) -> i32;
}

fn read_clock(clock: i32) -> f64 {
    let mut time = [0; 2];
    assert_eq!(unsafe { clock_gettime(clock, &mut time) }, 0);
    time[0] as f64 + time[1] as f64 / 1e9
}

/// The processor's time of this thread: it stands still while another program has the processor.
pub fn processor() -> f64 {
    const THREAD_CPUTIME: i32 = 3;
    read_clock(THREAD_CPUTIME)
}

/// The time that passes, for what other processes do.
pub fn passing() -> f64 {
    const MONOTONIC: i32 = 1;
    read_clock(MONOTONIC)
}

fn seconds(clock: Clock, job: Job, contender: usize, times: usize) -> f64 {
    let start = clock();
    job(contender, times);
    clock() - start
}

/// How many calls of a contender make a go. It warms up what the call uses, too.
fn times(clock: Clock, job: Job, contender: usize) -> usize {
    let mut times = 1;
    loop {
        let took = seconds(clock, job, contender, times);
        if took > GO / 4.0 {
            return (times as f64 * GO / took).ceil() as usize;
        }
        times *= 2;
    }
}

/// The quarters and the median between them.
fn quarters(mut values: Vec<f64>) -> [f64; 3] {
    values.sort_by(f64::total_cmp);
    let last = values.len() - 1;
    [last / 4, last / 2, last - last / 4].map(|place| values[place])
}

pub fn measure(clock: Clock, contenders: usize, job: Job) -> Measured {
    let times: Vec<usize> = (0..contenders).map(|contender| times(clock, job, contender)).collect();
    let mut rounds = vec![Vec::new(); contenders];
    let start = passing();
    for done in 0..ROUNDS {
        if done >= LEAST_ROUNDS && passing() - start > MOST_SECONDS {
            break;
        }
        for (contender, round) in rounds.iter_mut().enumerate() {
            let times = times[contender];
            round.push(seconds(clock, job, contender, times) / times as f64);
        }
    }
    let ratio =
        |round: &Vec<f64>| quarters(round.iter().zip(&rounds[0]).map(|(b, a)| b / a).collect());
    Measured {
        ratios: rounds.iter().map(ratio).collect(),
        seconds: rounds.iter().map(|round| quarters(round.clone())[1]).collect(),
    }
}
