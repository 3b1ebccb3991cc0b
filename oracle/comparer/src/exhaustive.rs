//! Every session of a few calls, out of a short list of calls, on the smallest rings.
use crate::script::Script;

pub struct Family {
    ring: &'static str,
    calls: &'static [&'static str],
    depth: u32,
}

/// On a ring of 3 slots one TRB may be outstanding, on 4 two, on 5 a control request with data.
pub const FAMILIES: [Family; 3] = [
    Family {
        ring: "ring\t3\t10000\tffffffff\t1\t1",
        calls: &[
            "bulk\t1\t20000\t64",
            "iso\t1\t20000\t192\t192",
            "whole\tiso\t0\t20000\t9",
            "event\t10000\t0\t1000000\t1018000",
            "event\t10000\t0\t6000000\t1018000",
            "event\t10010\t0\td000005\t1018000",
            "reclaim\t1",
            "reclaim\t2",
            "cancel\t1",
            "retire",
            "reset",
            "end\t1",
            "nextid\t1",
        ],
        depth: 4,
    },
    Family {
        ring: "ring\t4\t0\tffffffff\t255\t31",
        calls: &[
            "begin\tcontrol\t80\t6\t100\t0\t20000\t0",
            "begin\tiso\t1\t20000\t20\t9\t11",
            "interrupt\t0\t20000\t0",
            "store",
            "step\t2",
            "event\t0\t0\td000002\tff1f8000",
            "event\t10\t0\t1000000\tff1f8000",
            "event\t20\t0\t1c000003\tff1f8000",
            "reclaim\t1",
            "cancel\t1",
            "retire",
            "resume",
            "nextid\t18446744073709551615",
        ],
        depth: 4,
    },
    Family {
        ring: "ring\t5\tfffffffffffff000\tffffffff\t7\t2",
        calls: &[
            "control\t80\t6\t100\t0\t20000\t18",
            "control\t0\t9\t1\t0\t20000\t2",
            "whole\tbulk\t1\tfffff000\t4096",
            "bulk\t1\tfffff000\t4097",
            "iso\t1\t20000\t30\t10\t10\t10",
            "event\tfffff000\tffffffff\t1000000\t7028000",
            "event\tfffff010\tffffffff\td000005\t7028000",
            "event\tfffff020\tffffffff\t1000000\t7028000",
            "event\tfffff020\tffffffff\t4000000\t7028000",
            "reclaim\t1",
            "reclaim\t2",
            "cancel\t2",
            "configure\t8\t1\t255",
        ],
        depth: 4,
    },
];

impl Family {
    pub fn size(&self) -> u64 {
        (self.calls.len() as u64).pow(self.depth)
    }

    /// The session of this number.
    pub fn write(&self, script: &mut Script, number: u64) {
        script.call(self.ring);
        let mut left = number;
        for _ in 0..self.depth {
            let at = left % self.calls.len() as u64;
            left /= self.calls.len() as u64;
            script.call(self.calls[at as usize]);
        }
        script.say("step\t9");
    }
}
