"""The library as a shared object of this machine, by ctypes: what `igc check` says of a file, to hold the page against."""
import ctypes, os, platform


class Library:
    def __init__(self, root):
        self.so = ctypes.CDLL(os.path.join(root, 'target', 'lib', platform.machine(), 'libhivebasket.so'))

    @staticmethod
    def is_there(root):
        return os.path.exists(os.path.join(root, 'target', 'lib', platform.machine(), 'libhivebasket.so'))

    def check(self, file):
        """None for an accepted file, else the text of its refusal."""
        size, answer = ctypes.c_size_t, (ctypes.c_uint64 * 16)()
        room = len(file) // 3 + 1
        table, data = (ctypes.c_uint32 * room)(), (ctypes.c_uint8 * max(1, len(file))).from_buffer_copy(file or b'\0')
        refused = self.so.hive_check(data, size(len(file)), table, size(room), answer, size(16))
        if refused == 0:
            return None
        line, byte, text = answer[0], answer[1], (ctypes.c_uint8 * 400)()
        assert self.so.hive_explain(data, size(len(file)), refused, ctypes.c_uint32(line), ctypes.c_uint32(byte), text, size(400), answer, size(16)) == 0
        return bytes(text[:answer[2]]).decode('latin1')
