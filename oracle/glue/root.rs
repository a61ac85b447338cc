// Stands where the crate's lib.rs does. The crate's files hold more than the oracle calls.
#[allow(dead_code, unused_imports)]
pub(crate) mod columnar;
#[allow(dead_code, unused_imports)]
pub(crate) mod storage;

/// Name: `parse::actor_id` mentions it, and nothing here calls that.
pub(crate) struct ActorId;

impl From<&[u8]> for ActorId {
    fn from(_: &[u8]) -> Self {
        unreachable!("a stand-in: only its name is used")
    }
}

/// Name: `parse::change_hash` mentions it, and nothing here calls that.
pub(crate) struct ChangeHash;

impl TryFrom<&[u8]> for ChangeHash {
    type Error = std::fmt::Error;

    fn try_from(_: &[u8]) -> Result<Self, Self::Error> {
        unreachable!("a stand-in: only its name is used")
    }
}
