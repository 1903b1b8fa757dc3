"""What stands behind the tools that convert, respell, draw, report, batch, and check a certificate again."""
