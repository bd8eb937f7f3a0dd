"""Captures of ESMC frames: who speaks in them, and a device beside the rules.

Knows capture files of any kind and what stands round a frame; each frame is decoded by the program. Offers `esmc`, all frames of a
capture in order, `talkers` and `talk_report` for `capture read`, `lab_lines`, `device` and `lab_report` for `capture node` and
`capture compare`, and `frame_writer` for `capture write`.
"""
