"""Parts of examples/test_embedding.py: what they share, programs in C and Rust, and the package in Python."""
