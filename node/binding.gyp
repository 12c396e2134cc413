# Builds odb_batch.node, here, as ./compile does, with node-gyp:
#
#   node-gyp rebuild -- -Dodb_library=FOLDER
#
# FOLDER is the absolute path of where bin/odb_library has written libodb_batch.a.
{
  "variables": {"odb_library%": ""},
  "targets": [
    {
      "target_name": "odb_batch",
      "sources": ["odb_batch.c", "lists.c", "runs.c", "targets.c"],
      "defines": ["NAPI_VERSION=8"],
      "cflags_c": ["-std=c99", "-Wall", "-Wextra", "-fvisibility=hidden"],
      "libraries": ["<(odb_library)/libodb_batch.a"],
      "ldflags": ["-Wl,--exclude-libs,ALL"],
    },
    {
      "target_name": "place",
      "type": "none",
      "dependencies": ["odb_batch"],
      "copies": [{"files": ["<(PRODUCT_DIR)/odb_batch.node"], "destination": "<(module_root_dir)"}],
    },
  ],
}
