mod folders;
mod told;
