"""A terminal over a device, for one session or for many test patterns."""
