//! Deliberate mistakes, to show that `check` can fail.

macro_rules! mistakes {
    ($($name:literal $mistake:ident: $meaning:literal;)*) => {
        #[derive(Clone, Copy, Debug, PartialEq, Eq)]
        pub enum Mistake {
            $(#[doc = $meaning] $mistake,)*
        }

        /// Name, mistake and meaning of each.
        pub const MISTAKES: &[(&str, Mistake, &str)] = &[$(($name, Mistake::$mistake, $meaning),)*];
    };
}

mistakes! {
    "certify-alone" CertifyAlone: "A site decides a global transaction by its own vote.";
    "commit-any" CommitAny: "A commit closes anywhere in the queue.";
    "overtake" Overtake: "DELIVER passes over a next one that conflicts.";
    "no-conflict" NoConflict: "DELIVER certifies past a conflicting one in the queue.";
    "count-aborted" CountAborted: "An aborted writer adds 1 to the version.";
    "abort-all" AbortAll: "Every verdict is abort.";
    "vote-yes" VoteYes: "Every vote is yes.";
    "off-by-one" OffByOne: "SETTLE counts one step too many.";
    "carry-local" CarryLocal: "Votes on local transactions are carried.";
    "carry-open" CarryOpen: "Votes are not carried to a site that has closed.";
    "same-place" SamePlace: "SUBMIT gives the second transaction the first one's place.";
    "refusal-writes" RefusalWrites: "A refused step changes a version.";
    "wrong-answer" WrongAnswer: "READ answers the version plus one.";
    "fast-order" FastOrder: "The fast SETTLE carries from the highest site first.";
    "fast-overflow" FastOverflow: "The fast SETTLE does not look at refusal 32.";
}

pub fn named(name: &str) -> Option<Mistake> {
    MISTAKES.iter().find(|(known, _, _)| *known == name).map(|(_, mistake, _)| *mistake)
}

impl Mistake {
    /// Only the fast SETTLE makes it.
    pub fn is_of_fast_settle(self) -> bool {
        matches!(self, Mistake::FastOrder | Mistake::FastOverflow)
    }
}
