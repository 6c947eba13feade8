/* What is decided about calls: opens.c makes tables of these rows, with the numbers of programs of 64 and of 32 bits.
   None of this is proved. */
    /* what opens files or changes their lengths */
    {{__NR_open}, ANSWER, .answer = answer_open, .test = {HAS_BITS, 1, CHANGES}},
    {{__NR_openat}, ANSWER, .answer = answer_openat, .test = {HAS_BITS, 2, CHANGES}},
    {{__NR_openat2}, ANSWER, .answer = answer_openat2},
    {{__NR_creat}, ANSWER, .answer = answer_creat},
    {{__NR_truncate}, ANSWER, .answer = answer_truncate},
    {{__NR_ftruncate, __NR_sendfile}, ANSWER, .answer = answer_ftruncate},
#ifdef __NR_truncate64 /* (of 32 bits alone) */
    {{__NR_truncate64}, ANSWER, .answer = answer_truncate},
    {{__NR_ftruncate64, __NR_sendfile64}, ANSWER, .answer = answer_ftruncate},
#endif
    {{__NR_splice, __NR_copy_file_range}, ANSWER, .answer = answer_splice},
    {{__NR_fallocate}, ANSWER, .answer = answer_fallocate},
    /* what makes or removes names */
    {{__NR_unlink, __NR_rmdir}, ANSWER, .answer = answer_unlink},
    {{__NR_unlinkat}, ANSWER, .answer = answer_unlinkat},
    {{__NR_rename}, ANSWER, .answer = answer_rename},
    {{__NR_renameat, __NR_renameat2}, ANSWER, .answer = answer_renameat},
    {{__NR_mkdir, __NR_mknod}, ANSWER, .answer = answer_mkdir},
    {{__NR_mkdirat, __NR_mknodat}, ANSWER, .answer = answer_mkdirat},
    {{__NR_link, __NR_symlink}, ANSWER, .answer = answer_link},
    {{__NR_symlinkat}, ANSWER, .answer = answer_symlinkat},
    {{__NR_linkat}, ANSWER, .answer = answer_linkat},
    /* what reaches the process group, or takes an open file from a process outside, which the peer of a socket can name
       */
    {{__NR_kill}, ANSWER, .answer = answer_kill, .test = {EQUALS, 0, 0}},
    {{__NR_setpriority}, ANSWER, .answer = answer_priority, .test = {EQUALS, 0, PRIO_PGRP}},
    {{__NR_ioprio_set}, ANSWER, .answer = answer_io_priority, .test = {EQUALS, 0, GROUP}},
    {{__NR_pidfd_send_signal}, .action = ERROR(EINVAL), .test = {HAS_BITS, 3, TO_GROUP}},
    {{__NR_pidfd_getfd}, .action = ERROR(EPERM)},
    /* io_uring, which opens files without calls; keys, which would be the caller's; clone3, whose flags can't be seen,
       so that glibc uses clone; and for root, namespaces of control groups, in which it could mount and change them */
    {{__NR_io_uring_setup, __NR_io_uring_enter, __NR_io_uring_register, __NR_add_key, __NR_request_key, __NR_keyctl,
      __NR_clone3},
     .action = ERROR(ENOSYS)},
    {{__NR_clone, __NR_unshare}, .action = ERROR(EPERM), .test = {HAS_BITS, 0, CLONE_NEWCGROUP}, .is_of_root = 1},
    /* what types into the caller's terminal, and what nodes answer */
    {{__NR_ioctl}, .action = ERROR(EPERM), .test = {EQUALS, 1, TIOCSTI}},
    {{__NR_ioctl}, .action = ERROR(EPERM), .test = {EQUALS, 1, TIOCLINUX}},
    {{__NR_ioctl}, ANSWER, .answer = answer_ioctl, .test = {EQUALS, 1, GEOMETRY_REQUEST}},
    {{__NR_ioctl}, ANSWER, .answer = answer_ioctl, .test = {HAS_TYPE, 1, NVME_TYPE << _IOC_TYPESHIFT}},
    {{__NR_ioctl}, ANSWER, .answer = answer_ioctl, .test = {HAS_TYPE, 1, BLOCK_TYPE << _IOC_TYPESHIFT}},
