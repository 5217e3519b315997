"""The machine at a moment, as lispm_inside writes it, and sessions, memory and objects as text, drawings and a page."""
