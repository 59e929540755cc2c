# shellcheck shell=bash disable=SC2154
# For the builds of bindings/, to be sourced behind crates.sh: crates/pb_c, and the LLVM module that its compiler is handed.
#
# `rattle build` proves a static library, writes it as one LLVM module, and has the clang of its toolchain compile that for x86-64.
# It is handed a folder that stands for the kit's toolchain: the clang in it leaves a copy of the module as crates/pb_c/out/pb_c.bc
# and then runs the kit's. bindings/js/build compiles the same module for WebAssembly.
kit=$(dirname "$(rt doc)")
module=$top/crates/pb_c/out/pb_c.bc

make_keeping_toolchain() { # in a folder, with the file that the module is copied to
  mkdir -p "$1/bin"
  ln -s "$kit/toolchain/lib" "$1"
  ln -s "$kit/toolchain/bin/ld.lld" "$kit/toolchain/bin/llvm-ar" "$kit/toolchain/bin/rattle-x64" "$1/bin"
  cat > "$1/bin/clang" << END
#!/usr/bin/env bash
for word; do
  case \$word in *.bc) ! grep -q pb_c_run "\$word" || cp "\$word" '$2.new' ;; esac
done
exec -a "\$0" '$kit/toolchain/bin/clang' "\$@"
END
  chmod +x "$1/bin/clang"
}

prove_pb_c() { # alone, over the libraries that stand in crates/NAME/out; more words go to rattle. It fails where a library is not there
  local name library room words=()
  put_in_order pb_c
  for name in "${order[@]}"; do
    [ "$name" != pb_c ] || continue
    [ -d "$top/crates/$name/out/rlib/$name.rlib" ] || return 1
    words+=(-L "dependency=$top/crates/$name/out/rlib")
  done
  for name in ${below[pb_c]} ${of_kit[pb_c]} std; do
    library=$top/crates/$name/out/rlib/$name.rlib
    [ -d "$library" ] || library=$kit/rlibs/$name.rlib
    words+=(--extern "$name=$library")
  done
  mkdir -p "${module%/*}"
  rm -f "$module" "$module.new"
  room=$(mktemp -d)
  make_keeping_toolchain "$room/toolchain" "$module"
  (cd "$top/crates/pb_c" && "$kit/bin/rattle" build --crate-name pb_c src/lib.rt --crate-type staticlib "${words[@]}" \
    -L "dependency=$kit/rlibs" --antt-project "$kit/rattle/logic/antt-project.json" --logic-built "$kit/logic_built" \
    --links pb_c= --jobs 2 --toolchain "$room/toolchain" "$@" -o out/libpb_c.a) || { rm -rf "$room"; return 1; }
  rm -rf "$room"
  mv "$module.new" "$module"
}
