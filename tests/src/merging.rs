mod journals;
mod large;
mod merge;
mod merged;
mod shows;
