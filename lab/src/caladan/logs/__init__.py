"""Logs of requests as workloads: how they are read, what runs are made of them, and draws from them."""
