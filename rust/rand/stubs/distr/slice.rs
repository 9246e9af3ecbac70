//! Stands in for a file of rand that was not delivered. Nothing of it is needed.
