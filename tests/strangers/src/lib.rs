//! Frames of strangers at both ends of a relation: which frames of a real start-up belong to it, which others do not, and that those that do
//! not leave both ends as they were, in a flood of frames with other octets, and between all moves of a run.
#![cfg(test)]

mod floods;
mod octets;
mod plant;
mod rows;
mod runs;
