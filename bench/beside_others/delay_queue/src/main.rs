//! tokio-util's DelayQueue with the rounds of workload.h, under tokio's paused clock, which the program moves on.
use std::future::poll_fn;
use std::task::{Context, Poll};
use std::time::Duration;
use tokio::time::{advance, Instant};
use tokio_util::time::{delay_queue::Key, DelayQueue};

#[repr(C)]
struct Timespec {
    seconds: i64,
    nanos: i64,
}

extern "C" {
    fn clock_gettime(clock: i32, time: *mut Timespec) -> i32;
}

/// The thread's processor time.
fn now_ns() -> f64 {
    let mut t = Timespec { seconds: 0, nanos: 0 };
    unsafe { clock_gettime(3, &mut t) };
    t.seconds as f64 * 1e9 + t.nanos as f64
}

struct Draws(u64);

impl Draws {
    fn next(&mut self) -> u32 {
        self.0 = self.0.wrapping_mul(6364136223846793005).wrapping_add(1442695040888963407);
        (self.0 >> 33) as u32
    }

    fn bucket(&mut self) -> Duration {
        Duration::from_millis(4 * (self.next() >> 10 & 63) as u64)
    }
}

struct Timers {
    queue: DelayQueue<u32>,
    keys: Vec<Option<Key>>,
    order: Vec<u32>,
    draws: Draws,
    start: Instant,
    fired: usize,
}

impl Timers {
    fn new(timers: usize) -> Timers {
        let mut draws = Draws(1);
        let mut order: Vec<u32> = (0..timers as u32).collect();
        for k in (1..timers).rev() {
            order.swap(k, draws.next() as usize % (k + 1));
        }
        Timers { queue: DelayQueue::with_capacity(timers), keys: vec![None; timers], order, draws, start: Instant::now(), fired: 0 }
    }

    #[inline(never)]
    fn measured_arm(&mut self, ahead: Duration) {
        for &i in &self.order {
            let due = self.start + ahead + self.draws.bucket();
            self.keys[i as usize] = Some(self.queue.insert_at(i, due));
        }
    }

    #[inline(never)]
    fn measured_rearm(&mut self, ahead: Duration) {
        for &i in &self.order {
            let due = self.start + ahead + self.draws.bucket();
            self.queue.reset_at(self.keys[i as usize].as_ref().unwrap(), due);
        }
    }

    #[inline(never)]
    fn measured_stop(&mut self) {
        for &i in &self.order {
            self.queue.remove(&self.keys[i as usize].take().unwrap());
        }
    }

    /// All are armed so that 300 ms later they are due.
    fn arm_due(&mut self) {
        for &i in &self.order {
            let due = self.start + Duration::from_millis(4) + self.draws.bucket();
            self.queue.insert_at(i, due);
        }
    }

    #[inline(never)]
    fn measured_expire(&mut self, context: &mut Context<'_>) -> Poll<()> {
        while let Poll::Ready(next) = self.queue.poll_expired(context) {
            match next {
                Some(_) => self.fired += 1,
                None => return Poll::Ready(()),
            }
        }
        Poll::Pending
    }
}

fn median(mut taken: Vec<f64>) -> f64 {
    taken.sort_by(f64::total_cmp);
    taken[taken.len() / 2]
}

async fn play(timers: usize, rounds: u32) {
    let mut all = Timers::new(timers);
    let [mut clock, mut arming, mut rearming, mut stopping, mut expiring] = [const { Vec::new() }; 5];
    for _ in 0..100 {
        let start = now_ns();
        clock.push(now_ns() - start);
    }
    for _ in 0..rounds {
        all.start = Instant::now();
        let start = now_ns();
        all.measured_arm(Duration::from_secs(1000));
        arming.push(now_ns() - start);
        let start = now_ns();
        all.measured_rearm(Duration::from_secs(1000));
        rearming.push(now_ns() - start);
        let start = now_ns();
        all.measured_stop();
        stopping.push(now_ns() - start);
        all.arm_due();
        advance(Duration::from_millis(300)).await;
        all.fired = 0;
        let start = now_ns();
        tokio::task::unconstrained(poll_fn(|context| all.measured_expire(context))).await;
        expiring.push(now_ns() - start);
        assert_eq!(all.fired, timers);
    }
    let empty = median(clock);
    let ns = |taken| (median(taken) - empty) / timers as f64;
    println!("arm {:.1} rearm {:.1} stop {:.1} expire {:.1}", ns(arming), ns(rearming), ns(stopping), ns(expiring));
}

fn main() {
    let words: Vec<usize> = std::env::args().skip(1).map(|word| word.parse().expect("a number")).collect();
    let [timers, rounds] = words[..] else { panic!("TIMERS ROUNDS") };
    let runtime = tokio::runtime::Builder::new_current_thread().enable_time().start_paused(true).build().unwrap();
    runtime.block_on(play(timers, rounds as u32));
}
