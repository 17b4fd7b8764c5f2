//! Lists of operators run by the library alone.

use kulabismuth::Reply;

/// The initial state.
pub fn initial(image: &[u16]) -> Vec<u8> {
    let mut state = vec![9; usize::from(image[0])];
    let reply = kulabismuth::task_initial(image, &mut state);
    assert_eq!(reply.number, 0, "{image:?}");
    state
}

/// A list run from the initial state, and the state it leaves.
pub fn run(image: &[u16], list: &[u16]) -> (Reply, Vec<u8>) {
    let mut state = initial(image);
    let reply = kulabismuth::task_run(image, &mut state, list);
    (reply, state)
}
