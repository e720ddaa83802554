"""A soak of the library: the plans of what is submitted and asked, and the audit of what is answered."""
