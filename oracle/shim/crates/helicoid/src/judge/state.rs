//! What a job leaves from record to record, but for its counts.

use super::chain::Chain;
use super::sheets::Sheets;

/// The running join and the kept sheets. Neither sees the other.
#[derive(Default)]
pub struct State {
    pub chain: Chain,
    pub sheets: Sheets,
}
