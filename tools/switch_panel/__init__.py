"""What stands before a live switch: guests and interfaces that come and go, and operators (docs/savi-panel.8)."""
