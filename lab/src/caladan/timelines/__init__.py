"""A history or a run as trace events, which Perfetto and chrome://tracing open."""
