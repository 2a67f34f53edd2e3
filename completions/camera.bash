# The words of ./camera for bash; made by completions/make from help/.
_camera() {
  local now=${COMP_WORDS[COMP_CWORD]} before=${COMP_WORDS[COMP_CWORD - 1]} offered= files=
  case $([ "$COMP_CWORD" -gt 1 ] && echo "${COMP_WORDS[1]}") in
    '') offered="play run check gen convert arbiter auto logical reprocess help hal hal-of candidates explain timeline video picture --help --version --install" ;;
    --install) COMPREPLY=($(compgen -d -- "$now")); return ;;
    play) offered="--help" files=yes ;;
    run) offered="--workers --help" files=yes; [ "$before" != --workers ] || offered="1 2 3 4 5 6 7 8" files= ;;
    check) offered="--help" files=yes ;;
    gen) offered="--help" files= ;;
    convert) offered="--help" files=yes ;;
    arbiter) offered="--help" files=yes ;;
    auto) offered="--help" files=yes ;;
    logical) offered="--help" files=yes ;;
    reprocess) offered="--help" files=yes ;;
    help) offered="--help" files= ;;
    hal) offered="--plain --strict --help" files=yes ;;
    hal-of) offered="--help" files=yes ;;
    candidates) offered="--help" files=yes ;;
    explain) offered="--help" files=yes ;;
    timeline) offered="--perfetto --help" files=yes ;;
    video) offered="--help" files=yes ;;
    picture) offered="--help" files=yes ;;
  esac
  COMPREPLY=($(compgen -W "$offered" -- "$now"))
  if [ -n "$files" ]; then
    local IFS=$'\n'
    COMPREPLY+=($(compgen -f -- "$now"))
  fi
}
complete -o filenames -F _camera camera ./camera
