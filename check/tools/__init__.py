"""norm beside other tools."""
