mod errors;
mod lags;
mod stores;
mod words;
