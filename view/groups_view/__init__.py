"""The parts of groups-page: lines of `calls` to the data, pictures and text of one HTML page."""
