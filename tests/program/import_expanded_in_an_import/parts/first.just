import x'${NO_SUCH_NAME:-deep/er}/second.just'
