"""Signals, states, alarms and diagnosis of a plant as topics of MQTT: docs/BRIDGE.md."""
