"""Files and folders: installations, failing devices, kills and crashes."""
