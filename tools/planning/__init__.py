"""Plans from a spreadsheet, around the proved program asg. Nothing here is proved."""
