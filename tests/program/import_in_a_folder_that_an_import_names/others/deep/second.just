import? 'missing.just'
import 'third.just'
